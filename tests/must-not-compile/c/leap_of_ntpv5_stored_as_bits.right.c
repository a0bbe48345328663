/* The twin of leap_of_ntpv5_stored_as_bits.wrong.c, corrected. */
#include "lobzhinar.h"

void program(NtpHeaderV3V4 *older);
void program(NtpHeaderV3V4 *older) {
    older->leap.bits = NTP_LEAP_BITS_UNSYNCHRONIZED;
}
