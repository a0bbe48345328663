/* What a search found is given for a plan: it has the stores of a recovery. */
#include "lobzhinar.h"

NtpNumber program(NtpStore *store, const NtpJournalFound *found, const NtpJournalPlan *plan);
NtpNumber program(NtpStore *store, const NtpJournalFound *found, const NtpJournalPlan *plan) {
    NtpNumber number = NTP_ACCEPTED;
    (void)found, (void)plan;
    number = ntp_journal_append_store(store, found, 0);  /* must fail: incompatible pointer type */
    return number;
}
