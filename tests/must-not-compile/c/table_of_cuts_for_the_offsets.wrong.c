/* A table of cuts is given for the list of offsets. */
#include "lobzhinar.h"

bool program(NtpPacket packet, const NtpCut *cuts, const size_t *offsets, const size_t *lengths, size_t count);
bool program(NtpPacket packet, const NtpCut *cuts, const size_t *offsets, const size_t *lengths, size_t count) {
    bool yes = false;
    (void)cuts, (void)offsets;
    yes = ntp_judge_cut_lists(packet, cuts, count, lengths, count).is_cut;  /* must fail: incompatible pointer type */
    return yes;
}
