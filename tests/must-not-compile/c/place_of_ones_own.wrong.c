/* Stage two is told a place in place of what stage one returned. gcc only. */
#include "lobzhinar.h"

NtpNumber program(size_t *len, const NtpStageOne *stage, NtpNonce nonce, NtpCiphertext ciphertext);
NtpNumber program(size_t *len, const NtpStageOne *stage, NtpNonce nonce, NtpCiphertext ciphertext) {
    NtpNumber number;
    (void)stage;
    number = ntp_stage_two(len, (size_t)48, nonce, ciphertext);  /* must fail: makes pointer from integer */
    return number;
}
