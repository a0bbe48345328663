/* The twin of poll_as_seconds.wrong.c, corrected. */
#include "lobzhinar.h"

int program(NtpHeader *header);
int program(NtpHeader *header) {
    int wait = 0;
    wait = ntp_poll_log2_seconds(header->poll);
    return wait;
}
