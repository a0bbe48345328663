/* A trust class is returned for a verdict. */
#include "lobzhinar.h"

NtpVerdict program(void *key, const NtpSeal *seal, const NtpContext *context, NtpRoom room, size_t *plaintext_len);
NtpVerdict program(void *key, const NtpSeal *seal, const NtpContext *context, NtpRoom room, size_t *plaintext_len) {
    NtpVerdict verdict;
    (void)key, (void)seal, (void)context, (void)room, (void)plaintext_len;
    verdict = NTP_ENCRYPTED;  /* must fail: undeclared */
    return verdict;
}
