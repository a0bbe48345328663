/* The twin of number_as_a_reference_id.wrong.c, corrected. */
#include "lobzhinar.h"

void program(NtpHeaderV3V4 *older);
void program(NtpHeaderV3V4 *older) {
    older->reference_id.value = 0x44454E59;
}
