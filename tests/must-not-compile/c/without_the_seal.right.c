/* The twin of without_the_seal.wrong.c, corrected. */
#include "lobzhinar.h"

NtpNumber program(size_t *len, const NtpStageOne *stage, NtpNonce nonce, NtpCiphertext ciphertext);
NtpNumber program(size_t *len, const NtpStageOne *stage, NtpNonce nonce, NtpCiphertext ciphertext) {
    NtpNumber number;
    (void)stage, (void)nonce, (void)ciphertext;
    number = ntp_stage_two(len, stage, nonce, ciphertext);
    return number;
}
