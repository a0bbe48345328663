/* The reply is NULL. */
#include "lobzhinar.h"

NtpNumber program(NtpRead *read, NtpWorkspace *work, NtpPacket packet, NtpOpener opener);
NtpNumber program(NtpRead *read, NtpWorkspace *work, NtpPacket packet, NtpOpener opener) {
    NtpNumber number = NTP_ACCEPTED;
    number = ntp_survey(NULL, packet);  /* must fail: null */
    (void)read, (void)work, (void)packet, (void)opener;
    return number;
}
