/* The twin of result_not_looked_at.wrong.c, corrected. */
#include "lobzhinar.h"

NtpNumber program(NtpRead *read, NtpWorkspace *work, NtpPacket packet, NtpOpener opener);
NtpNumber program(NtpRead *read, NtpWorkspace *work, NtpPacket packet, NtpOpener opener) {
    NtpNumber number = NTP_ACCEPTED;
    number = ntp_deserialize(read, work, packet, opener, ntp_room(NULL, 0));
    return number;
}
