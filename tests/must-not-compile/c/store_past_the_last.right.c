/* The twin of store_past_the_last.wrong.c, corrected. */
#include "lobzhinar.h"

NtpNumber program(NtpRoom image, const NtpJournalPlan *plan, size_t index);
NtpNumber program(NtpRoom image, const NtpJournalPlan *plan, size_t index) {
    NtpNumber number = NTP_ACCEPTED;
    NtpStore store;
    number = ntp_journal_append_store(&store, plan, index);
    if (number == NTP_ACCEPTED) ntp_journal_store(image, store);
    return number;
}
