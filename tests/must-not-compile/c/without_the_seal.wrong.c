/* Stage two is called without what the cipher made. */
#include "lobzhinar.h"

NtpNumber program(size_t *len, const NtpStageOne *stage, NtpNonce nonce, NtpCiphertext ciphertext);
NtpNumber program(size_t *len, const NtpStageOne *stage, NtpNonce nonce, NtpCiphertext ciphertext) {
    NtpNumber number;
    (void)stage, (void)nonce, (void)ciphertext;
    number = ntp_stage_two(len, stage);  /* must fail: too few arguments */
    return number;
}
