/* The twin of precision_without_its_unit.wrong.c, corrected. */
#include "lobzhinar.h"

int program(NtpHeader *header);
int program(NtpHeader *header) {
    int wait = 0;
    wait = header->precision_log2_seconds;
    return wait;
}
