/* A plan is given for what a search found: it has the stores of an append. */
#include "lobzhinar.h"

NtpNumber program(NtpStore *store, const NtpJournalFound *found, const NtpJournalPlan *plan);
NtpNumber program(NtpStore *store, const NtpJournalFound *found, const NtpJournalPlan *plan) {
    NtpNumber number = NTP_ACCEPTED;
    (void)found, (void)plan;
    number = ntp_journal_recovery_store(store, plan, 0);  /* must fail: incompatible pointer type */
    return number;
}
