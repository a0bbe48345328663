/* The twin of offsets_for_a_table_of_cuts.wrong.c, corrected. */
#include "lobzhinar.h"

bool program(NtpPacket packet, const NtpCut *cuts, const size_t *offsets, size_t count);
bool program(NtpPacket packet, const NtpCut *cuts, const size_t *offsets, size_t count) {
    bool yes = false;
    (void)cuts, (void)offsets;
    yes = ntp_judge_cut(packet, cuts, count).is_cut;
    return yes;
}
