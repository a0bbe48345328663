/* The twin of found_for_a_plan.wrong.c, corrected. */
#include "lobzhinar.h"

NtpNumber program(NtpStore *store, const NtpJournalFound *found, const NtpJournalPlan *plan);
NtpNumber program(NtpStore *store, const NtpJournalFound *found, const NtpJournalPlan *plan) {
    NtpNumber number = NTP_ACCEPTED;
    (void)found, (void)plan;
    number = ntp_journal_append_store(store, plan, 0);
    return number;
}
