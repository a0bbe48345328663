/* The twin of number_as_a_short.wrong.c, corrected. */
#include "lobzhinar.h"

void program(NtpHeaderV3V4 *older);
void program(NtpHeaderV3V4 *older) {
    older->root_delay = ntp_short_from_units_of_2pow_minus_16_s(65536);
}
