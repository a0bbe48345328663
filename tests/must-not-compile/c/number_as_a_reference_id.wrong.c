/* A bare number is stored as a reference id. */
#include "lobzhinar.h"

void program(NtpHeaderV3V4 *older);
void program(NtpHeaderV3V4 *older) {
    older->reference_id = 0x44454E59;  /* must fail: incompatible type */
}
