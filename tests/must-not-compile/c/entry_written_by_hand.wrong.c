/* A program writes into an entry that it has read. */
#include "lobzhinar.h"

NtpNumber program(NtpRoom image);
NtpNumber program(NtpRoom image) {
    NtpNumber number = NTP_ACCEPTED;
    NtpJournalEntry entry;
    number = ntp_journal_entry(&entry, ntp_bytes(image.bytes, image.len), 0);
    if (number != NTP_ACCEPTED) return number;
    entry.body.bytes[0] = 0;  /* must fail: read-only */
    return number;
}
