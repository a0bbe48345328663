/* The twin of place_of_ones_own.wrong.c, corrected. */
#include "lobzhinar.h"

NtpNumber program(size_t *len, const NtpStageOne *stage, NtpNonce nonce, NtpCiphertext ciphertext);
NtpNumber program(size_t *len, const NtpStageOne *stage, NtpNonce nonce, NtpCiphertext ciphertext) {
    NtpNumber number;
    (void)stage;
    number = ntp_stage_two(len, stage, nonce, ciphertext);
    return number;
}
