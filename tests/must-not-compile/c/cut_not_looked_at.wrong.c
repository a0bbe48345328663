/* Nobody looks whether the table is the cut. */
#include "lobzhinar.h"

bool program(NtpPacket packet, const NtpCut *cuts, size_t count);
bool program(NtpPacket packet, const NtpCut *cuts, size_t count) {
    bool yes = false;
    ntp_judge_cut(packet, cuts, count);  /* must fail: ignoring return value */
    return yes;
}
