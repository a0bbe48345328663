/* A sealed field that did not open has a plaintext. */
#include "lobzhinar.h"

NtpNumber program(NtpResults *results, const NtpSeal *seal);
NtpNumber program(NtpResults *results, const NtpSeal *seal) {
    NtpNumber number;
    (void)seal;
    number = ntp_add_failed(results, seal, 16);  /* must fail: too many arguments */
    return number;
}
