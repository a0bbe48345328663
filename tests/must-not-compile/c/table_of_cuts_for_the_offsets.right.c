/* The twin of table_of_cuts_for_the_offsets.wrong.c, corrected. */
#include "lobzhinar.h"

bool program(NtpPacket packet, const NtpCut *cuts, const size_t *offsets, const size_t *lengths, size_t count);
bool program(NtpPacket packet, const NtpCut *cuts, const size_t *offsets, const size_t *lengths, size_t count) {
    bool yes = false;
    (void)cuts, (void)offsets;
    yes = ntp_judge_cut_lists(packet, offsets, count, lengths, count).is_cut;
    return yes;
}
