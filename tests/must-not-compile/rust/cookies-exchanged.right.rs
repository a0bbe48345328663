// The client's cookie is taken for one.
use lobzhinar::NtpHeaderV5;

pub fn host(request: &NtpHeaderV5, response: &NtpHeaderV5) -> bool {
    request.client_cookie == response.client_cookie
}
