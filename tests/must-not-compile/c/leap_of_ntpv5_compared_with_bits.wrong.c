/* The leap of the older header is compared with a number of NTPv5. */
#include "lobzhinar.h"

int program(const NtpHeaderV3V4 *older);
int program(const NtpHeaderV3V4 *older) {
    if (older->leap == NTP_LEAP_UNSYNCHRONIZED)  /* must fail: invalid operands */
        return 0;
    return 1;
}
