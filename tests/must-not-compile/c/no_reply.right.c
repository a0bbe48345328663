/* The twin of no_reply.wrong.c, corrected. */
#include "lobzhinar.h"

NtpNumber program(NtpRead *read, NtpWorkspace *work, NtpPacket packet, NtpOpener opener);
NtpNumber program(NtpRead *read, NtpWorkspace *work, NtpPacket packet, NtpOpener opener) {
    NtpNumber number = NTP_ACCEPTED;
    number = ntp_survey(&work->survey, packet);
    (void)read, (void)work, (void)packet, (void)opener;
    return number;
}
