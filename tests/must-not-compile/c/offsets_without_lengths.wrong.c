/* The offsets are given without the lengths. */
#include "lobzhinar.h"

bool program(NtpPacket packet, const size_t *offsets, const size_t *lengths, size_t count);
bool program(NtpPacket packet, const size_t *offsets, const size_t *lengths, size_t count) {
    bool yes = false;
    (void)lengths;
    yes = ntp_judge_cut_lists(packet, offsets, count).is_cut;  /* must fail: too few arguments */
    return yes;
}
