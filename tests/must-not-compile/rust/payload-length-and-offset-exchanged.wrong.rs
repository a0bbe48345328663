// Length and offset of a request are exchanged.
use lobzhinar::{FilterOffset, PayloadLen, ReferenceIdRequest, Refusal};

pub fn host() -> Result<ReferenceIdRequest, Refusal> {
    ReferenceIdRequest::new(FilterOffset(4), PayloadLen(8)) //~ E0308
}
