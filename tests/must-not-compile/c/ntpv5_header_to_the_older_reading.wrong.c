/* A header of NTPv5 is given to the reading of the older one. */
#include "lobzhinar.h"

double program(const NtpHeader *header, const NtpHeaderV3V4 *older);
double program(const NtpHeader *header, const NtpHeaderV3V4 *older) {
    (void)header, (void)older;
    return ntp_reading_v3v4(header).distance_seconds;  /* must fail: incompatible pointer type */
}
