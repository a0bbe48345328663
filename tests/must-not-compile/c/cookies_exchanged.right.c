/* The twin of cookies_exchanged.wrong.c, corrected. */
#include "lobzhinar.h"

int program(NtpHeader *header);
int program(NtpHeader *header) {
    int wait = 0;
    header->client_cookie.value = 7;
    return wait;
}
