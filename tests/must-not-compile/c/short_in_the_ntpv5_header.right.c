/* The twin of short_in_the_ntpv5_header.wrong.c, corrected. */
#include "lobzhinar.h"

void program(NtpHeader *header, NtpHeaderV3V4 *older);
void program(NtpHeader *header, NtpHeaderV3V4 *older) {
    (void)header, (void)older;
    header->root_dispersion = header->root_delay;
}
