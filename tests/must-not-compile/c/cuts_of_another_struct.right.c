/* The twin of cuts_of_another_struct.wrong.c, corrected. */
#include "lobzhinar.h"

bool program(NtpPacket packet, const NtpCut *cuts, const NtpStore *stores, size_t count);
bool program(NtpPacket packet, const NtpCut *cuts, const NtpStore *stores, size_t count) {
    bool yes = false;
    (void)cuts, (void)stores;
    yes = ntp_judge_cut(packet, cuts, count).is_cut;
    return yes;
}
