/* A table of stores is given for a table of cuts. */
#include "lobzhinar.h"

bool program(NtpPacket packet, const NtpCut *cuts, const NtpStore *stores, size_t count);
bool program(NtpPacket packet, const NtpCut *cuts, const NtpStore *stores, size_t count) {
    bool yes = false;
    (void)cuts, (void)stores;
    yes = ntp_judge_cut(packet, stores, count).is_cut;  /* must fail: incompatible pointer type */
    return yes;
}
