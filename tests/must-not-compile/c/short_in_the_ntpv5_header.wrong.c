/* A length of time of the older header is stored in that of NTPv5, which counts another unit. */
#include "lobzhinar.h"

void program(NtpHeader *header, NtpHeaderV3V4 *older);
void program(NtpHeader *header, NtpHeaderV3V4 *older) {
    (void)header, (void)older;
    header->root_dispersion = older->root_dispersion;  /* must fail: incompatible type */
}
