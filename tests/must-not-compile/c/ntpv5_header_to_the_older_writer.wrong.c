/* A header of NTPv5 is given to the writer of the older one. */
#include "lobzhinar.h"

NtpNumber program(const NtpHeader *header, const NtpHeaderV3V4 *older, NtpRoom out);
NtpNumber program(const NtpHeader *header, const NtpHeaderV3V4 *older, NtpRoom out) {
    (void)header, (void)older;
    return ntp_header_v3v4_write(header, out, 0);  /* must fail: incompatible pointer type */
}
