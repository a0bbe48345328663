/* The twin of field_kind_as_an_entry_kind.wrong.c, corrected. */
#include "lobzhinar.h"

NtpNumber program(NtpJournalPlan *plan, NtpBytes image, NtpBytes body);
NtpNumber program(NtpJournalPlan *plan, NtpBytes image, NtpBytes body) {
    NtpNumber number = NTP_ACCEPTED;
    number = ntp_journal_start(plan, image, NTP_JOURNAL_HEADER, body);
    return number;
}
