//! The MAC: every length, read and written.

use lobzhinar::{Mac, Refusal};

/// A key id of 0x01020304, and a digest.
fn bytes(len: usize) -> Vec<u8> {
    (1..).take(len).collect()
}

#[test]
fn three_lengths_are_read() {
    for len in 0..=30 {
        let bytes = bytes(len);
        let expected = match len {
            4 | 20 | 24 => Ok(Mac {
                keyid: 0x0102_0304,
                mac: &bytes[4..],
            }),
            _ => Err(Refusal::IncorrectLength),
        };
        assert_eq!(Mac::deserialize(&bytes), expected, "{len} bytes");
    }
}

#[test]
fn three_lengths_are_written_and_read_again() {
    for len in 0..=30 {
        let bytes = bytes(4 + len);
        let mac = Mac {
            keyid: 0x0102_0304,
            mac: &bytes[4..],
        };
        let (mut out, mut short) = (vec![0xee; 5 + len], vec![0xee; 4 + len]);
        let written = mac.serialize(&mut out, 1);
        if matches!(len, 0 | 16 | 20) {
            assert_eq!(written, Ok(4 + len));
            assert_eq!(out[1..], bytes);
            assert_eq!(Mac::deserialize(&out[1..]), Ok(mac));
            assert_eq!(mac.serialize(&mut short, 1), Err(Refusal::NoRoom));
        } else {
            assert_eq!(written, Err(Refusal::CannotBeMade), "{len} bytes");
            assert_eq!(out, vec![0xee; 5 + len]);
            assert_eq!(mac.serialize(&mut short, 1), Err(Refusal::CannotBeMade));
        }
        assert_eq!(short, vec![0xee; 4 + len]);
    }
}
