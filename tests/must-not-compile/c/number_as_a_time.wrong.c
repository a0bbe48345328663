/* A bare number is given for a length of time. */
#include "lobzhinar.h"

double program(NtpTimestamp when, NtpTime32 delay, double seconds);
double program(NtpTimestamp when, NtpTime32 delay, double seconds) {
    NtpReading reading;
    const NtpTime32 dispersion = ntp_time32_from_units_of_2pow_minus_28_s(1);
    (void)when, (void)seconds, (void)delay;
    ntp_raw_reading(&reading, 5, dispersion);  /* must fail: incompatible type */
    return reading.distance_seconds;
}
