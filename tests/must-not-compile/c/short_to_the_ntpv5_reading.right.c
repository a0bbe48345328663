/* The twin of short_to_the_ntpv5_reading.wrong.c, corrected. */
#include "lobzhinar.h"

double program(const NtpHeader *header, const NtpHeaderV3V4 *older);
double program(const NtpHeader *header, const NtpHeaderV3V4 *older) {
    NtpReading reading;
    (void)header, (void)older;
    ntp_raw_reading(&reading, header->root_delay, header->root_dispersion);
    return reading.distance_seconds;
}
