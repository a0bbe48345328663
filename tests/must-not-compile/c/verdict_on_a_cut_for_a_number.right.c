/* The twin of verdict_on_a_cut_for_a_number.wrong.c, corrected. */
#include "lobzhinar.h"

NtpNumber program(NtpPacket packet, const NtpCut *cuts, size_t count);
NtpNumber program(NtpPacket packet, const NtpCut *cuts, size_t count) {
    NtpNumber number = NTP_ACCEPTED;
    number = ntp_judge_cut(packet, cuts, count).is_cut ? NTP_ACCEPTED : NTP_INCORRECT_LENGTH;
    return number;
}
