/* The twin of trust_as_a_verdict.wrong.c, corrected. */
#include "lobzhinar.h"

NtpVerdict program(void *key, const NtpSeal *seal, const NtpContext *context, NtpRoom room, size_t *plaintext_len);
NtpVerdict program(void *key, const NtpSeal *seal, const NtpContext *context, NtpRoom room, size_t *plaintext_len) {
    NtpVerdict verdict;
    (void)key, (void)seal, (void)context, (void)room, (void)plaintext_len;
    verdict = NTP_OPENED;
    return verdict;
}
