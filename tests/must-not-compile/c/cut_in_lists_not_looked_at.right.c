/* The twin of cut_in_lists_not_looked_at.wrong.c, corrected. */
#include "lobzhinar.h"

bool program(NtpPacket packet, const size_t *offsets, const size_t *lengths, size_t count);
bool program(NtpPacket packet, const size_t *offsets, const size_t *lengths, size_t count) {
    bool yes = false;
    yes = ntp_judge_cut_lists(packet, offsets, count, lengths, count).is_cut;
    return yes;
}
