/* A point in time is stored as a reference id. */
#include "lobzhinar.h"

void program(NtpHeaderV3V4 *older);
void program(NtpHeaderV3V4 *older) {
    older->reference_id = older->reference_timestamp;  /* must fail: incompatible type */
}
