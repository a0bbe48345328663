/* The twin of failed_with_a_plaintext.wrong.c, corrected. */
#include "lobzhinar.h"

NtpNumber program(NtpResults *results, const NtpSeal *seal);
NtpNumber program(NtpResults *results, const NtpSeal *seal) {
    NtpNumber number;
    (void)seal;
    number = ntp_add_failed(results, seal);
    return number;
}
