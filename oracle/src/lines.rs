//! Reading a stream line by line.

use std::io::{BufRead, Result};

/// The lines of a stream, read one after another into the same buffer.
pub struct Lines<R> {
    input: R,
    line: Vec<u8>,
}

impl<R: BufRead> Lines<R> {
    pub fn of(input: R) -> Self {
        let line = Vec::new();
        Self { input, line }
    }

    /// The next line without its line feed, which the last one may lack.
    pub fn next(&mut self) -> Result<Option<&[u8]>> {
        self.line.clear();
        if self.input.read_until(b'\n', &mut self.line)? == 0 {
            return Ok(None);
        }
        let line = self.line.strip_suffix(b"\n");
        Ok(Some(line.unwrap_or(&self.line)))
    }

    /// How many lines are left.
    pub fn count_rest(&mut self) -> Result<u64> {
        let mut count = 0;
        while self.next()?.is_some() {
            count += 1;
        }
        Ok(count)
    }
}
