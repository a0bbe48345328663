/* Offset and length of a cut are written without their names, and exchanged. gcc only. */
#include "lobzhinar.h"

bool program(NtpPacket packet);
bool program(NtpPacket packet) {
    const NtpCut cut = {36, 48};  /* must fail: positional initialization */
    return ntp_judge_cut(packet, &cut, 1).is_cut;
}
