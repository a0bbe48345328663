// The fields of a packet whose seal failed are used as those of an accepted one.
use lobzhinar::{ExtensionFieldData, ReadError};

fn set_clock(_read: &ExtensionFieldData<'_, '_, '_>) {}

pub fn host(read: Result<ExtensionFieldData<'_, '_, '_>, ReadError<'_, '_, '_>>) {
    match read {
        Ok(data) => set_clock(&data),
        Err(ReadError::DecryptError(data)) => set_clock(&data), //~ E0308
        Err(ReadError::Refused(_)) => {}
    }
}
