/* The twin of untrusted_asked_for_as_authenticated.wrong.c, corrected. */
#include "lobzhinar.h"

size_t program(const NtpRead *read);
size_t program(const NtpRead *read) {
    NtpAuthenticatedField trusted;
    NtpUntrustedField untrusted;
    untrusted.message.len = trusted.message.len = 0;
    if (ntp_authenticated_field(&trusted, read, 0) != NTP_ACCEPTED)
        return 0;
    return trusted.message.len + untrusted.message.len;
}
