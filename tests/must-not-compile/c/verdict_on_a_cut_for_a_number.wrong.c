/* A verdict on a cut is handed out as a number, in which 0 stands for accepted: a no would pass. */
#include "lobzhinar.h"

NtpNumber program(NtpPacket packet, const NtpCut *cuts, size_t count);
NtpNumber program(NtpPacket packet, const NtpCut *cuts, size_t count) {
    NtpNumber number = NTP_ACCEPTED;
    number = ntp_judge_cut(packet, cuts, count);  /* must fail: incompatible */
    return number;
}
