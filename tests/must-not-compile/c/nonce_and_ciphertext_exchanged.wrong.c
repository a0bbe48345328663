/* Nonce and ciphertext are exchanged. */
#include "lobzhinar.h"

NtpNumber program(size_t *len, const NtpStageOne *stage, NtpNonce nonce, NtpCiphertext ciphertext);
NtpNumber program(size_t *len, const NtpStageOne *stage, NtpNonce nonce, NtpCiphertext ciphertext) {
    NtpNumber number;
    (void)stage;
    number = ntp_stage_two(len, stage, ciphertext, nonce);  /* must fail: incompatible type */
    return number;
}
