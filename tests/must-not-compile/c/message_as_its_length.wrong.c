/* A message is taken for its length. */
#include "lobzhinar.h"

size_t program(const NtpRead *read);
size_t program(const NtpRead *read) {
    NtpAuthenticatedField field;
    if (ntp_authenticated_field(&field, read, 0) != NTP_ACCEPTED) return 0;
    size_t len = field.message;  /* must fail: incompatible type */
    return len;
}
