/* The twin of older_header_to_the_ntpv5_writer.wrong.c, corrected. */
#include "lobzhinar.h"

NtpNumber program(const NtpHeader *header, const NtpHeaderV3V4 *older, NtpRoom out);
NtpNumber program(const NtpHeader *header, const NtpHeaderV3V4 *older, NtpRoom out) {
    (void)header, (void)older;
    return ntp_header_v3v4_write(older, out, 0);
}
