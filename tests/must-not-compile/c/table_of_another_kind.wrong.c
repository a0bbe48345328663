/* A table of inner fields is given for one of sealed fields. */
#include "lobzhinar.h"

void program(NtpRawSurvey *reply, NtpSealTable *seals, NtpInnerTable *inner, const uint8_t *packet);
void program(NtpRawSurvey *reply, NtpSealTable *seals, NtpInnerTable *inner, const uint8_t *packet) {
    (void)seals, (void)inner;
    ntp_raw_survey_128(reply, packet, 48, 48, 4, inner);  /* must fail: incompatible pointer type */
}
