/* A length of time of the older header is given to the reading of NTPv5. */
#include "lobzhinar.h"

double program(const NtpHeader *header, const NtpHeaderV3V4 *older);
double program(const NtpHeader *header, const NtpHeaderV3V4 *older) {
    NtpReading reading;
    (void)header, (void)older;
    ntp_raw_reading(&reading, header->root_delay, older->root_dispersion);  /* must fail: incompatible type */
    return reading.distance_seconds;
}
