/* A length of time of NTPv5 is stored in the older header, which counts another unit. */
#include "lobzhinar.h"

void program(NtpHeader *header, NtpHeaderV3V4 *older);
void program(NtpHeader *header, NtpHeaderV3V4 *older) {
    (void)header, (void)older;
    older->root_delay = header->root_delay;  /* must fail: incompatible type */
}
