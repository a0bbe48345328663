/* The twin of cut_of_bare_bytes.wrong.c, corrected. */
#include "lobzhinar.h"

bool program(NtpBytes bytes, const NtpCut *cuts, size_t count);
bool program(NtpBytes bytes, const NtpCut *cuts, size_t count) {
    bool yes = false;
    yes = ntp_judge_cut(ntp_packet_v4(bytes.bytes, bytes.len), cuts, count).is_cut;
    return yes;
}
