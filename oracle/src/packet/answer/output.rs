//! An output that is lent for a write, and the answer that ends with it.

use super::domain::{LONGEST, Outside, inside};
use super::line::Answer;
use crate::format::{Parsed, Words, hex};
use std::io::{Cursor, Result as Written};

/// The output's bytes and the place in them at which the write starts.
#[derive(Clone)]
pub struct Output {
    start: u64,
    bytes: Vec<u8>,
}

impl Output {
    pub fn read(words: &mut Words) -> Parsed<Self> {
        let start = words.number()?;
        let bytes = words.bytes()?;
        Ok(Self { start, bytes })
    }

    /// An output of zeros that is written from its start.
    pub fn blank(length: usize) -> Self {
        Self {
            start: 0,
            bytes: vec![0; length],
        }
    }

    /// An output is treated as no longer than 65,535 bytes; the Rust given more
    /// writes more.
    pub fn inside_limits(&self) -> Result<(), Outside> {
        inside(self.bytes.len() <= LONGEST, Outside::OutputTooLong)
    }

    pub fn starts_past_end(&self) -> bool {
        self.start > self.bytes.len() as u64
    }

    /// Lets the crate write. The count of bytes written and the whole output
    /// follow or, if it refuses, the output as it was lent.
    pub fn write(
        self,
        writer: impl FnOnce(&mut Cursor<&mut [u8]>) -> Written<()>,
    ) -> Result<Done, Lent> {
        let mut bytes = self.bytes.clone();
        let mut cursor = Cursor::new(&mut bytes[..]);
        cursor.set_position(self.start);
        match writer(&mut cursor) {
            Ok(()) => Ok(Done {
                count: cursor.position() - self.start,
                bytes,
            }),
            Err(_) => Err(Lent(self.bytes)),
        }
    }
}

/// An output after an accepted write.
pub struct Done {
    pub count: u64,
    pub bytes: Vec<u8>,
}

/// An output after a write that the crate refused, with no byte changed.
pub struct Lent(pub Vec<u8>);

/// The answer `0 COUNT OUT`, or `refused OUT`.
pub fn answer(done: Result<Done, Lent>) -> Answer {
    match done {
        Ok(done) => Answer::accepted(format_args!("{} {}", done.count, hex(&done.bytes))),
        Err(Lent(bytes)) => Answer::Refused(hex(&bytes)),
    }
}
