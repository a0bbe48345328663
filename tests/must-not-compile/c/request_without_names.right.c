/* The twin of request_without_names.wrong.c, corrected. */
#include "lobzhinar.h"

NtpNumber program(NtpFields *fields, NtpBytes cookie);
NtpNumber program(NtpFields *fields, NtpBytes cookie) {
    NtpNumber number;
    (void)cookie;
    const NtpRequest request = {.payload_len = 8, .filter_offset = 4};
    number = ntp_add_reference_id_request(ntp_untrusted_list(fields), request);
    return number;
}
