/* Nobody looks whether the packet was read. */
#include "lobzhinar.h"

NtpNumber program(NtpRead *read, NtpWorkspace *work, NtpPacket packet, NtpOpener opener);
NtpNumber program(NtpRead *read, NtpWorkspace *work, NtpPacket packet, NtpOpener opener) {
    NtpNumber number = NTP_ACCEPTED;
    ntp_deserialize(read, work, packet, opener, ntp_room(NULL, 0));  /* must fail: ignoring return value */
    return number;
}
