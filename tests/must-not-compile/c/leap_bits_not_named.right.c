/* The twin of leap_bits_not_named.wrong.c, corrected. */
#include "lobzhinar.h"

void program(NtpHeaderV3V4 *older);
void program(NtpHeaderV3V4 *older) {
    const NtpLeapBits leap = {.bits = NTP_LEAP_BITS_UNSYNCHRONIZED};
    older->leap = leap;
}
