/* The twin of timestamp_as_a_time.wrong.c, corrected. */
#include "lobzhinar.h"

double program(NtpTimestamp when, NtpTime32 delay, double seconds);
double program(NtpTimestamp when, NtpTime32 delay, double seconds) {
    NtpReading reading;
    const NtpTime32 dispersion = ntp_time32_from_units_of_2pow_minus_28_s(1);
    (void)when, (void)seconds, (void)delay;
    ntp_raw_reading(&reading, delay, dispersion);
    return reading.distance_seconds;
}
