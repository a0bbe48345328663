/* The twin of append_not_looked_at.wrong.c, corrected. */
#include "lobzhinar.h"

NtpNumber program(NtpRoom image, NtpBytes body);
NtpNumber program(NtpRoom image, NtpBytes body) {
    NtpNumber number = NTP_ACCEPTED;
    size_t entry_offset;
    number = ntp_journal_append(&entry_offset, image, NTP_JOURNAL_READ, body);
    return number;
}
