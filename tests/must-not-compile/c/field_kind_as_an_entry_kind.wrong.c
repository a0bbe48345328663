/* The kind of a field is given for that of an entry. */
#include "lobzhinar.h"

NtpNumber program(NtpJournalPlan *plan, NtpBytes image, NtpBytes body);
NtpNumber program(NtpJournalPlan *plan, NtpBytes image, NtpBytes body) {
    NtpNumber number = NTP_ACCEPTED;
    number = ntp_journal_start(plan, image, NTP_NTS_COOKIE, body);  /* must fail: implicit conversion from */
    return number;
}
