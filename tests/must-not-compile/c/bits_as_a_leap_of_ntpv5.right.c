/* The twin of bits_as_a_leap_of_ntpv5.wrong.c, corrected. */
#include "lobzhinar.h"

void program(NtpHeader *header, NtpHeaderV3V4 *older);
void program(NtpHeader *header, NtpHeaderV3V4 *older) {
    (void)header, (void)older;
    header->leap = NTP_LEAP_UNSYNCHRONIZED;
}
