/* The twin of ntpv5_header_to_the_older_writer.wrong.c, corrected. */
#include "lobzhinar.h"

NtpNumber program(const NtpHeader *header, const NtpHeaderV3V4 *older, NtpRoom out);
NtpNumber program(const NtpHeader *header, const NtpHeaderV3V4 *older, NtpRoom out) {
    (void)header, (void)older;
    return ntp_header_write(header, out, 0);
}
