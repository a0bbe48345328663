/* The twin of entry_written_by_hand.wrong.c, corrected. */
#include "lobzhinar.h"

NtpNumber program(NtpRoom image);
NtpNumber program(NtpRoom image) {
    NtpNumber number = NTP_ACCEPTED;
    NtpJournalEntry entry;
    number = ntp_journal_entry(&entry, ntp_bytes(image.bytes, image.len), 0);
    if (number != NTP_ACCEPTED) return number;
    number = (NtpNumber)entry.body.bytes[0];
    return number;
}
