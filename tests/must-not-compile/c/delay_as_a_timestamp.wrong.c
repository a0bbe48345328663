/* A length of time is stored as a point in time. */
#include "lobzhinar.h"

int program(NtpHeader *header);
int program(NtpHeader *header) {
    int wait = 0;
    header->receive_timestamp = header->root_delay;  /* must fail: incompatible type */
    return wait;
}
