/* The twin of recovery_of_bytes_to_read.wrong.c, corrected. */
#include "lobzhinar.h"

NtpNumber program(NtpBytes image, NtpRoom room);
NtpNumber program(NtpBytes image, NtpRoom room) {
    NtpNumber number = NTP_ACCEPTED;
    NtpJournalFound found;
    (void)image, (void)room;
    number = ntp_journal_recover(&found, room);
    return number;
}
