/* A length of time is made without naming its unit. gcc only. */
#include "lobzhinar.h"

double program(NtpTimestamp when, NtpTime32 delay, double seconds);
double program(NtpTimestamp when, NtpTime32 delay, double seconds) {
    NtpReading reading;
    const NtpTime32 dispersion = ntp_time32_from_units_of_2pow_minus_28_s(1);
    (void)when, (void)seconds, (void)delay;
    const NtpTime32 other = {5};  /* must fail: positional initialization */
    ntp_raw_reading(&reading, other, dispersion);
    return reading.distance_seconds;
}
