/* The older header is asked of the reader of NTPv5. */
#include "lobzhinar.h"

NtpNumber program(NtpHeaderRead *read, NtpHeaderV3V4Read *older, NtpBytes data);
NtpNumber program(NtpHeaderRead *read, NtpHeaderV3V4Read *older, NtpBytes data) {
    (void)read, (void)older;
    return ntp_header_read(older, data);  /* must fail: incompatible pointer type */
}
