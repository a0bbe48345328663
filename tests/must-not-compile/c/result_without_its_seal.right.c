/* The twin of result_without_its_seal.wrong.c, corrected. */
#include "lobzhinar.h"

NtpNumber program(NtpResults *results, const NtpSeal *seal);
NtpNumber program(NtpResults *results, const NtpSeal *seal) {
    NtpNumber number;
    (void)seal;
    number = ntp_add_opened(results, seal, 16);
    return number;
}
