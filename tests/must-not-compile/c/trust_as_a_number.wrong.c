/* The trust of a field is told by a number. */
#include "lobzhinar.h"

size_t program(const NtpRead *read);
size_t program(const NtpRead *read) {
    NtpAuthenticatedField trusted;
    NtpUntrustedField untrusted;
    untrusted.message.len = trusted.message.len = 0;
    if (ntp_outer_field(&untrusted, read, 0, NTP_AUTHENTICATED) != NTP_ACCEPTED)  /* must fail: undeclared */
        return 0;
    return trusted.message.len + untrusted.message.len;
}
