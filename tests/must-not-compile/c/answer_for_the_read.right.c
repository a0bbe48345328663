/* The twin of answer_for_the_read.wrong.c, corrected. */
#include "lobzhinar.h"

NtpNumber program(NtpRoom out, const NtpRead *read);
NtpNumber program(NtpRoom out, const NtpRead *read) {
    NtpNumber number = NTP_ACCEPTED;
    (void)read;
    number = ntp_journal_read_body(out, read);
    return number;
}
