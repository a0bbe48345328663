/* The twin of cut_not_looked_at.wrong.c, corrected. */
#include "lobzhinar.h"

bool program(NtpPacket packet, const NtpCut *cuts, size_t count);
bool program(NtpPacket packet, const NtpCut *cuts, size_t count) {
    bool yes = false;
    yes = ntp_judge_cut(packet, cuts, count).is_cut;
    return yes;
}
