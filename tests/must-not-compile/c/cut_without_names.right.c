/* The twin of cut_without_names.wrong.c, corrected. */
#include "lobzhinar.h"

bool program(NtpPacket packet);
bool program(NtpPacket packet) {
    const NtpCut cut = {.field_offset = 48, .wire_length = 36};
    return ntp_judge_cut(packet, &cut, 1).is_cut;
}
