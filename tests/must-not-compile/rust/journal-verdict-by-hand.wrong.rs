// A verdict is made of numbers, and of no packet.
use lobzhinar::{ExtensionFieldData, ReadBody, ReadError};

pub fn host(read: &Result<ExtensionFieldData<'_, '_, '_>, ReadError<'_, '_, '_>>) -> ReadBody {
    let _ = read;
    ReadBody { bytes: [0, 1, 0, 0] } //~ E0451
}
