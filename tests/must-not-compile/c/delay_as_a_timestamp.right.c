/* The twin of delay_as_a_timestamp.wrong.c, corrected. */
#include "lobzhinar.h"

int program(NtpHeader *header);
int program(NtpHeader *header) {
    int wait = 0;
    header->receive_timestamp = header->transmit_timestamp;
    return wait;
}
