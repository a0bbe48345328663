// A verdict is made of what the reader returned.
use lobzhinar::{ExtensionFieldData, ReadBody, ReadError};

pub fn host(read: &Result<ExtensionFieldData<'_, '_, '_>, ReadError<'_, '_, '_>>) -> ReadBody {
    let _ = read;
    ReadBody::of(read)
}
