/* The older header is given to the reading of NTPv5. */
#include "lobzhinar.h"

double program(const NtpHeader *header, const NtpHeaderV3V4 *older);
double program(const NtpHeader *header, const NtpHeaderV3V4 *older) {
    (void)header, (void)older;
    return ntp_reading(older).distance_seconds;  /* must fail: incompatible pointer type */
}
