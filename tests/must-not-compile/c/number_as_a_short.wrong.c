/* A bare number is stored as a length of time of the older header. */
#include "lobzhinar.h"

void program(NtpHeaderV3V4 *older);
void program(NtpHeaderV3V4 *older) {
    older->root_delay = 65536;  /* must fail: incompatible type */
}
