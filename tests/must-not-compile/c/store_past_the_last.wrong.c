/* A store is performed, and nobody looks whether there is one. */
#include "lobzhinar.h"

NtpNumber program(NtpRoom image, const NtpJournalPlan *plan, size_t index);
NtpNumber program(NtpRoom image, const NtpJournalPlan *plan, size_t index) {
    NtpNumber number = NTP_ACCEPTED;
    NtpStore store;
    ntp_journal_append_store(&store, plan, index);  /* must fail: ignoring return value */
    if (number == NTP_ACCEPTED) ntp_journal_store(image, store);
    return number;
}
