/* The twin of message_as_its_length.wrong.c, corrected. */
#include "lobzhinar.h"

size_t program(const NtpRead *read);
size_t program(const NtpRead *read) {
    NtpAuthenticatedField field;
    if (ntp_authenticated_field(&field, read, 0) != NTP_ACCEPTED) return 0;
    size_t len = field.message.len;
    return len;
}
