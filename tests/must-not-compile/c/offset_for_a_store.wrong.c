/* The offset of a store is given for the store. */
#include "lobzhinar.h"

NtpNumber program(NtpRoom image, NtpStore store);
NtpNumber program(NtpRoom image, NtpStore store) {
    NtpNumber number = NTP_ACCEPTED;
    (void)store;
    ntp_journal_store(image, store.offset);  /* must fail: incompatible type */
    return number;
}
