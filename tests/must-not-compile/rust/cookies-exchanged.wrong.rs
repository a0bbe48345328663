// The server's cookie is taken for the client's.
use lobzhinar::NtpHeaderV5;

pub fn host(request: &NtpHeaderV5, response: &NtpHeaderV5) -> bool {
    request.client_cookie == response.server_cookie //~ E0308
}
