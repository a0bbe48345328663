/* The older header is given to the writer of NTPv5. */
#include "lobzhinar.h"

NtpNumber program(const NtpHeader *header, const NtpHeaderV3V4 *older, NtpRoom out);
NtpNumber program(const NtpHeader *header, const NtpHeaderV3V4 *older, NtpRoom out) {
    (void)header, (void)older;
    return ntp_header_write(older, out, 0);  /* must fail: incompatible pointer type */
}
