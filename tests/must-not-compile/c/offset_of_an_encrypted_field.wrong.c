/* The offset of an encrypted field is taken for one of the packet. */
#include "lobzhinar.h"

size_t program(const NtpRead *read);
size_t program(const NtpRead *read) {
    NtpAuthenticatedField trusted;
    NtpUntrustedField untrusted;
    NtpEncryptedField encrypted;
    if (ntp_authenticated_field(&trusted, read, 0) != NTP_ACCEPTED) return 0;
    if (ntp_untrusted_field(&untrusted, read, 0) != NTP_ACCEPTED) return 0;
    if (ntp_encrypted_field(&encrypted, read, 0) != NTP_ACCEPTED) return 0;
    size_t len = untrusted.message.len + encrypted.message.len + trusted.message.len;
    len += encrypted.packet_offset;  /* must fail: no member named */
    return len;
}
