// Only the fields of an accepted packet are used as such.
use lobzhinar::{ExtensionFieldData, ReadError};

fn set_clock(_read: &ExtensionFieldData<'_, '_, '_>) {}

pub fn host(read: Result<ExtensionFieldData<'_, '_, '_>, ReadError<'_, '_, '_>>) {
    match read {
        Ok(data) => set_clock(&data),
        Err(ReadError::DecryptError(data)) => drop(data.untrusted()),
        Err(ReadError::Refused(_)) => {}
    }
}
