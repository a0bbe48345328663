/* The twin of table_of_another_kind.wrong.c, corrected. */
#include "lobzhinar.h"

void program(NtpRawSurvey *reply, NtpSealTable *seals, NtpInnerTable *inner, const uint8_t *packet);
void program(NtpRawSurvey *reply, NtpSealTable *seals, NtpInnerTable *inner, const uint8_t *packet) {
    (void)seals, (void)inner;
    ntp_raw_survey_128(reply, packet, 48, 48, 4, seals);
}
