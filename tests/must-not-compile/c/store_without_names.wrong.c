/* Offset and byte of a store are written without their names, and exchanged. gcc only. */
#include "lobzhinar.h"

NtpNumber program(NtpRoom image);
NtpNumber program(NtpRoom image) {
    NtpNumber number = NTP_ACCEPTED;
    const NtpStore store = {0xFF, 12};  /* must fail: positional initialization */
    ntp_journal_store(image, store);
    return number;
}
