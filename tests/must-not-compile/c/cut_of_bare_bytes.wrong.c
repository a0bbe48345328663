/* Bytes are given for the packet, without their header size and version. */
#include "lobzhinar.h"

bool program(NtpBytes bytes, const NtpCut *cuts, size_t count);
bool program(NtpBytes bytes, const NtpCut *cuts, size_t count) {
    bool yes = false;
    yes = ntp_judge_cut(bytes, cuts, count).is_cut;  /* must fail: incompatible type */
    return yes;
}
