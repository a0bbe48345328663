/* The twin of verdict_on_a_cut_as_a_number.wrong.c, corrected. */
#include "lobzhinar.h"

bool program(NtpPacket packet, const NtpCut *cuts, size_t count);
bool program(NtpPacket packet, const NtpCut *cuts, size_t count) {
    bool yes = false;
    yes = ntp_judge_cut(packet, cuts, count).is_cut;
    return yes;
}
