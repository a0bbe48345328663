/* The twin of no_plan.wrong.c, corrected. */
#include "lobzhinar.h"

NtpNumber program(NtpBytes image, NtpBytes body, NtpJournalPlan *plan);
NtpNumber program(NtpBytes image, NtpBytes body, NtpJournalPlan *plan) {
    NtpNumber number = NTP_ACCEPTED;
    (void)plan;
    number = ntp_journal_start(plan, image, NTP_JOURNAL_HEADER, body);
    return number;
}
