/* The twin of ntpv5_header_from_the_older_reader.wrong.c, corrected. */
#include "lobzhinar.h"

NtpNumber program(NtpHeaderRead *read, NtpHeaderV3V4Read *older, NtpBytes data);
NtpNumber program(NtpHeaderRead *read, NtpHeaderV3V4Read *older, NtpBytes data) {
    (void)read, (void)older;
    return ntp_header_read(read, data);
}
