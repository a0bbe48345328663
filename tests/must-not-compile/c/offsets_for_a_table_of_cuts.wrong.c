/* A list of offsets is given for a table of cuts. */
#include "lobzhinar.h"

bool program(NtpPacket packet, const NtpCut *cuts, const size_t *offsets, size_t count);
bool program(NtpPacket packet, const NtpCut *cuts, const size_t *offsets, size_t count) {
    bool yes = false;
    (void)cuts, (void)offsets;
    yes = ntp_judge_cut(packet, offsets, count).is_cut;  /* must fail: incompatible pointer type */
    return yes;
}
