/* An untrusted field is asked for as an authenticated one. */
#include "lobzhinar.h"

size_t program(const NtpRead *read);
size_t program(const NtpRead *read) {
    NtpAuthenticatedField trusted;
    NtpUntrustedField untrusted;
    untrusted.message.len = trusted.message.len = 0;
    if (ntp_authenticated_field(&untrusted, read, 0) != NTP_ACCEPTED)  /* must fail: incompatible pointer type */
        return 0;
    return trusted.message.len + untrusted.message.len;
}
