//! Makes a request of any numbers, as a reader may have got it from the wire.

use super::ReferenceIdRequest;

pub const fn make_request(payload_len: u16, offset: u16) -> ReferenceIdRequest {
    ReferenceIdRequest {
        payload_len,
        offset,
    }
}
