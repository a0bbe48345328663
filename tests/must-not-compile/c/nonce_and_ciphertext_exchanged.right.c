/* The twin of nonce_and_ciphertext_exchanged.wrong.c, corrected. */
#include "lobzhinar.h"

NtpNumber program(size_t *len, const NtpStageOne *stage, NtpNonce nonce, NtpCiphertext ciphertext);
NtpNumber program(size_t *len, const NtpStageOne *stage, NtpNonce nonce, NtpCiphertext ciphertext) {
    NtpNumber number;
    (void)stage;
    number = ntp_stage_two(len, stage, nonce, ciphertext);
    return number;
}
