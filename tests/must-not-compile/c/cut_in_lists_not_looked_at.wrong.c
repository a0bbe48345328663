/* Nobody looks whether the lists are the cut. */
#include "lobzhinar.h"

bool program(NtpPacket packet, const size_t *offsets, const size_t *lengths, size_t count);
bool program(NtpPacket packet, const size_t *offsets, const size_t *lengths, size_t count) {
    bool yes = false;
    ntp_judge_cut_lists(packet, offsets, count, lengths, count);  /* must fail: ignoring return value */
    return yes;
}
