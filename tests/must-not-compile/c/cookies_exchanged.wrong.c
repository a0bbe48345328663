/* The server's cookie is taken for the client's. */
#include "lobzhinar.h"

int program(NtpHeader *header);
int program(NtpHeader *header) {
    int wait = 0;
    header->client_cookie = header->server_cookie;  /* must fail: incompatible type */
    return wait;
}
