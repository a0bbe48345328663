/* The twin of timestamp_as_a_reference_id.wrong.c, corrected. */
#include "lobzhinar.h"

void program(NtpHeaderV3V4 *older);
void program(NtpHeaderV3V4 *older) {
    older->reference_timestamp = older->transmit_timestamp;
}
