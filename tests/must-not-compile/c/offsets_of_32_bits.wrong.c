/* The offsets have 32 bits, as a gateway may keep them. */
#include "lobzhinar.h"

bool program(NtpPacket packet, const uint32_t *narrow, const size_t *offsets, const size_t *lengths, size_t count);
bool program(NtpPacket packet, const uint32_t *narrow, const size_t *offsets, const size_t *lengths, size_t count) {
    bool yes = false;
    (void)narrow, (void)offsets;
    yes = ntp_judge_cut_lists(packet, narrow, count, lengths, count).is_cut;  /* must fail: incompatible pointer type */
    return yes;
}
