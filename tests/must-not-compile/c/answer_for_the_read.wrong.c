/* The body of an entry is made of the answer alone, without the read that it came with. gcc only. */
#include "lobzhinar.h"

NtpNumber program(NtpRoom out, const NtpRead *read);
NtpNumber program(NtpRoom out, const NtpRead *read) {
    NtpNumber number = NTP_ACCEPTED;
    (void)read;
    number = ntp_journal_read_body(out, NTP_DECRYPT_ERROR);  /* must fail: makes pointer from integer */
    return number;
}
