/* A leap of the older header is made without saying that the number is its bits. gcc only. */
#include "lobzhinar.h"

void program(NtpHeaderV3V4 *older);
void program(NtpHeaderV3V4 *older) {
    const NtpLeapBits leap = {NTP_LEAP_UNKNOWN};  /* must fail: positional initialization */
    older->leap = leap;
}
