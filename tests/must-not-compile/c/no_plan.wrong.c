/* The plan is NULL. */
#include "lobzhinar.h"

NtpNumber program(NtpBytes image, NtpBytes body, NtpJournalPlan *plan);
NtpNumber program(NtpBytes image, NtpBytes body, NtpJournalPlan *plan) {
    NtpNumber number = NTP_ACCEPTED;
    (void)plan;
    number = ntp_journal_start(NULL, image, NTP_JOURNAL_HEADER, body);  /* must fail: null */
    return number;
}
