/* The twin of short_not_named.wrong.c, corrected. */
#include "lobzhinar.h"

void program(NtpHeaderV3V4 *older);
void program(NtpHeaderV3V4 *older) {
    const NtpShort delay = {.units_of_2pow_minus_16_s = 5};
    older->root_delay = delay;
}
