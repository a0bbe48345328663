/* The twin of time32_in_the_older_header.wrong.c, corrected. */
#include "lobzhinar.h"

void program(NtpHeader *header, NtpHeaderV3V4 *older);
void program(NtpHeader *header, NtpHeaderV3V4 *older) {
    (void)header, (void)older;
    older->root_delay = older->root_dispersion;
}
