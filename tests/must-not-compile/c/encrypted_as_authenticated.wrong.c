/* An encrypted field is given where an authenticated one is wanted. */
#include "lobzhinar.h"

/* Takes a cookie that the server has sealed. */
static size_t keep(const NtpAuthenticatedField *cookie) { return cookie->message.len; }

size_t program(const NtpRead *read);
size_t program(const NtpRead *read) {
    NtpAuthenticatedField trusted;
    NtpUntrustedField untrusted;
    NtpEncryptedField encrypted;
    if (ntp_authenticated_field(&trusted, read, 0) != NTP_ACCEPTED) return 0;
    if (ntp_untrusted_field(&untrusted, read, 0) != NTP_ACCEPTED) return 0;
    if (ntp_encrypted_field(&encrypted, read, 0) != NTP_ACCEPTED) return 0;
    return untrusted.message.len + encrypted.message.len +
           keep(&encrypted);  /* must fail: incompatible pointer type */
}
