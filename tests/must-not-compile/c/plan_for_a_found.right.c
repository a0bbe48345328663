/* The twin of plan_for_a_found.wrong.c, corrected. */
#include "lobzhinar.h"

NtpNumber program(NtpStore *store, const NtpJournalFound *found, const NtpJournalPlan *plan);
NtpNumber program(NtpStore *store, const NtpJournalFound *found, const NtpJournalPlan *plan) {
    NtpNumber number = NTP_ACCEPTED;
    (void)found, (void)plan;
    number = ntp_journal_recovery_store(store, found, 0);
    return number;
}
