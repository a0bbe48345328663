/* The twin of leap_of_ntpv5_compared_with_bits.wrong.c, corrected. */
#include "lobzhinar.h"

int program(const NtpHeaderV3V4 *older);
int program(const NtpHeaderV3V4 *older) {
    if (older->leap.bits == NTP_LEAP_BITS_UNSYNCHRONIZED)
        return 0;
    return 1;
}
