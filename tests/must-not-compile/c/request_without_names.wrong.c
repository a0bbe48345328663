/* Payload length and filter offset of a request are written without their names. gcc only. */
#include "lobzhinar.h"

NtpNumber program(NtpFields *fields, NtpBytes cookie);
NtpNumber program(NtpFields *fields, NtpBytes cookie) {
    NtpNumber number;
    (void)cookie;
    const NtpRequest request = {8, 4};  /* must fail: positional initialization */
    number = ntp_add_reference_id_request(ntp_untrusted_list(fields), request);
    return number;
}
