/* A length of time of the older header is made without naming its unit. gcc only. */
#include "lobzhinar.h"

void program(NtpHeaderV3V4 *older);
void program(NtpHeaderV3V4 *older) {
    const NtpShort delay = {5};  /* must fail: positional initialization */
    older->root_delay = delay;
}
