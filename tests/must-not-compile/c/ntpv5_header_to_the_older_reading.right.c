/* The twin of ntpv5_header_to_the_older_reading.wrong.c, corrected. */
#include "lobzhinar.h"

double program(const NtpHeader *header, const NtpHeaderV3V4 *older);
double program(const NtpHeader *header, const NtpHeaderV3V4 *older) {
    (void)header, (void)older;
    return ntp_reading(header).distance_seconds;
}
