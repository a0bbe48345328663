/* The precision is read by a name that does not say what it counts. */
#include "lobzhinar.h"

int program(NtpHeader *header);
int program(NtpHeader *header) {
    int wait = 0;
    wait = header->precision;  /* must fail: no member named */
    return wait;
}
