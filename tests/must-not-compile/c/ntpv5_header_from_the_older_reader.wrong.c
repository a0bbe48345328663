/* A header of NTPv5 is asked of the reader of the older one. */
#include "lobzhinar.h"

NtpNumber program(NtpHeaderRead *read, NtpHeaderV3V4Read *older, NtpBytes data);
NtpNumber program(NtpHeaderRead *read, NtpHeaderV3V4Read *older, NtpBytes data) {
    (void)read, (void)older;
    return ntp_header_v3v4_read(read, data);  /* must fail: incompatible pointer type */
}
