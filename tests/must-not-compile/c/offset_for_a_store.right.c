/* The twin of offset_for_a_store.wrong.c, corrected. */
#include "lobzhinar.h"

NtpNumber program(NtpRoom image, NtpStore store);
NtpNumber program(NtpRoom image, NtpStore store) {
    NtpNumber number = NTP_ACCEPTED;
    (void)store;
    ntp_journal_store(image, store);
    return number;
}
