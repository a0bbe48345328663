/* The byte of a poll interval is taken for seconds. */
#include "lobzhinar.h"

int program(NtpHeader *header);
int program(NtpHeader *header) {
    int wait = 0;
    wait = header->poll;  /* must fail: incompatible type */
    return wait;
}
