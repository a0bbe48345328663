/* A verdict on a cut is taken for a number, in which 0 stands for accepted: a no would pass. */
#include "lobzhinar.h"

bool program(NtpPacket packet, const NtpCut *cuts, size_t count);
bool program(NtpPacket packet, const NtpCut *cuts, size_t count) {
    bool yes = false;
    yes = ntp_judge_cut(packet, cuts, count) == NTP_ACCEPTED;  /* must fail: invalid operands */
    return yes;
}
