/* The twin of older_header_to_the_ntpv5_reading.wrong.c, corrected. */
#include "lobzhinar.h"

double program(const NtpHeader *header, const NtpHeaderV3V4 *older);
double program(const NtpHeader *header, const NtpHeaderV3V4 *older) {
    (void)header, (void)older;
    return ntp_reading_v3v4(older).distance_seconds;
}
