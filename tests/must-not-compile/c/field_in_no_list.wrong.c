/* A field is added without saying to which list. */
#include "lobzhinar.h"

NtpNumber program(NtpFields *fields, NtpBytes cookie);
NtpNumber program(NtpFields *fields, NtpBytes cookie) {
    NtpNumber number;
    (void)cookie;
    number = ntp_add_nts_cookie(fields, cookie);  /* must fail: incompatible type */
    return number;
}
