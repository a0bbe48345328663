//! Section 14 of the rules.

use super::{LONGEST, Output, Refusal, number_in, rounded_up, told, two_bytes, wrote};
use crate::format::{Parsed, Words, hex};

/// Rules 14.1 and 14.2.
pub fn request_new(words: &mut Words) -> Parsed<String> {
    let payload: u16 = words.number()?;
    let offset: u16 = words.number()?;
    let end = u32::from(payload) + u32::from(offset);
    if !payload.is_multiple_of(4) || end > 512 {
        return Ok(told(Err(18)));
    }
    Ok(told(Ok(format!("{payload} {offset}"))))
}

/// Rules 5.6 and 14.10.
pub fn request_read(words: &mut Words) -> Parsed<String> {
    let message = words.bytes()?;
    if message.len() < 2 || message.len() > LONGEST {
        return Ok(told(Err(1)));
    }
    let (payload, offset) = (message.len(), number_in(&message[..2]));
    Ok(told(Ok(format!("{payload} {offset}"))))
}

pub fn request_write(words: &mut Words) -> Parsed<String> {
    let payload: u16 = words.number()?;
    let offset: u16 = words.number()?;
    let output = Output::of(words)?;
    Ok(wrote(request_bytes(payload, offset), output))
}

/// Rules 14.3, 14.4 and 14.8.
pub fn request_bytes(payload: u16, offset: u16) -> Result<Vec<u8>, Refusal> {
    if payload == 0 || !payload.is_multiple_of(4) {
        return Err(18);
    }
    if payload > 65_531 {
        return Err(15);
    }
    let length = usize::from(payload) + 4;
    let mut bytes = vec![0xF5, 0x03];
    bytes.extend(two_bytes(length));
    bytes.extend(two_bytes(offset.into()));
    bytes.resize(length, 0);
    Ok(bytes)
}

/// Rule 14.5.
pub fn response_new(words: &mut Words) -> Parsed<String> {
    let length = words.bytes()?.len();
    if !length.is_multiple_of(4) || length > 512 {
        return Ok(told(Err(18)));
    }
    Ok(told(Ok(length.to_string())))
}

/// Rule 14.6.
pub fn response_cut(words: &mut Words) -> Parsed<String> {
    let payload: u16 = words.number()?;
    let offset: u16 = words.number()?;
    let filter = words.bytes()?;
    let start = usize::from(offset);
    let end = start + usize::from(payload);
    if end > filter.len() {
        return Ok(told(Err(18)));
    }
    Ok(told(Ok(hex(&filter[start..end]))))
}

/// Rule 14.9.
pub fn response_read(words: &mut Words) -> Parsed<String> {
    Ok(told(Ok(hex(&words.bytes()?))))
}

pub fn response_write(words: &mut Words) -> Parsed<String> {
    let data = words.bytes()?;
    let output = Output::of(words)?;
    Ok(wrote(response_bytes(&data), output))
}

/// Rules 14.7 and 14.8.
pub fn response_bytes(data: &[u8]) -> Result<Vec<u8>, Refusal> {
    if data.len() > 65_531 {
        return Err(15);
    }
    let length = data.len() + 4;
    let mut bytes = vec![0xF5, 0x04];
    bytes.extend(two_bytes(length));
    bytes.extend(data);
    bytes.resize(rounded_up(length), 0);
    Ok(bytes)
}
