/* Nobody looks whether the entry was appended. */
#include "lobzhinar.h"

NtpNumber program(NtpRoom image, NtpBytes body);
NtpNumber program(NtpRoom image, NtpBytes body) {
    NtpNumber number = NTP_ACCEPTED;
    size_t entry_offset;
    ntp_journal_append(&entry_offset, image, NTP_JOURNAL_READ, body);  /* must fail: ignoring return value */
    return number;
}
