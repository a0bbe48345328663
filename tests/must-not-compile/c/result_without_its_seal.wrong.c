/* A result does not say for which sealed field it is. */
#include "lobzhinar.h"

NtpNumber program(NtpResults *results, const NtpSeal *seal);
NtpNumber program(NtpResults *results, const NtpSeal *seal) {
    NtpNumber number;
    (void)seal;
    number = ntp_add_opened(results, 16);  /* must fail: too few arguments */
    return number;
}
