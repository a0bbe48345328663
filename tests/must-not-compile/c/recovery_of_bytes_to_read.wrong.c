/* Recovery erases bytes, and is given bytes that may only be read. */
#include "lobzhinar.h"

NtpNumber program(NtpBytes image, NtpRoom room);
NtpNumber program(NtpBytes image, NtpRoom room) {
    NtpNumber number = NTP_ACCEPTED;
    NtpJournalFound found;
    (void)image, (void)room;
    number = ntp_journal_recover(&found, image);  /* must fail: incompatible type */
    return number;
}
