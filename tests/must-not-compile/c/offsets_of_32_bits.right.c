/* The twin of offsets_of_32_bits.wrong.c, corrected. */
#include "lobzhinar.h"

bool program(NtpPacket packet, const uint32_t *narrow, const size_t *offsets, const size_t *lengths, size_t count);
bool program(NtpPacket packet, const uint32_t *narrow, const size_t *offsets, const size_t *lengths, size_t count) {
    bool yes = false;
    (void)narrow, (void)offsets;
    yes = ntp_judge_cut_lists(packet, offsets, count, lengths, count).is_cut;
    return yes;
}
