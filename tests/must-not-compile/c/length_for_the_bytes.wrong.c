/* The length of a cookie is given for its bytes. */
#include "lobzhinar.h"

NtpNumber program(NtpFields *fields, NtpBytes cookie);
NtpNumber program(NtpFields *fields, NtpBytes cookie) {
    NtpNumber number;
    (void)cookie;
    number = ntp_add_nts_cookie(ntp_encrypted_list(fields), cookie.len);  /* must fail: incompatible type */
    return number;
}
