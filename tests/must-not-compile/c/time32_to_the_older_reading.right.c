/* The twin of time32_to_the_older_reading.wrong.c, corrected. */
#include "lobzhinar.h"

double program(const NtpHeader *header, const NtpHeaderV3V4 *older);
double program(const NtpHeader *header, const NtpHeaderV3V4 *older) {
    NtpReading reading;
    (void)header, (void)older;
    ntp_raw_reading_v3v4(&reading, older->root_delay, older->root_dispersion);
    return reading.distance_seconds;
}
