// Length and offset of a request are in their places.
use lobzhinar::{FilterOffset, PayloadLen, ReferenceIdRequest, Refusal};

pub fn host() -> Result<ReferenceIdRequest, Refusal> {
    ReferenceIdRequest::new(PayloadLen(8), FilterOffset(4))
}
