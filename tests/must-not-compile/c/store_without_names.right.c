/* The twin of store_without_names.wrong.c, corrected. */
#include "lobzhinar.h"

NtpNumber program(NtpRoom image);
NtpNumber program(NtpRoom image) {
    NtpNumber number = NTP_ACCEPTED;
    const NtpStore store = {.offset = 12, .byte = 0xFF};
    ntp_journal_store(image, store);
    return number;
}
