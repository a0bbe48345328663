/* The twin of length_for_the_bytes.wrong.c, corrected. */
#include "lobzhinar.h"

NtpNumber program(NtpFields *fields, NtpBytes cookie);
NtpNumber program(NtpFields *fields, NtpBytes cookie) {
    NtpNumber number;
    (void)cookie;
    number = ntp_add_nts_cookie(ntp_encrypted_list(fields), cookie);
    return number;
}
