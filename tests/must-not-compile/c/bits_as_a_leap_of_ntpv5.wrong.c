/* The two bits of the older header are stored as a leap of NTPv5. */
#include "lobzhinar.h"

void program(NtpHeader *header, NtpHeaderV3V4 *older);
void program(NtpHeader *header, NtpHeaderV3V4 *older) {
    (void)header, (void)older;
    header->leap = older->leap;  /* must fail: incompatible type */
}
