/* A leap of NTPv5, which has other numbers, is stored in the older header. */
#include "lobzhinar.h"

void program(NtpHeaderV3V4 *older);
void program(NtpHeaderV3V4 *older) {
    older->leap = NTP_LEAP_UNSYNCHRONIZED;  /* must fail: incompatible type */
}
