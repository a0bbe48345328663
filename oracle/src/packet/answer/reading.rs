//! The time readings, which ntp-proto does not have: the bits of seconds in f64,
//! by whole numbers alone.

use super::line::Answer;
use crate::format::{Parsed, Words};

/// Of the header of NTPv5, whose delay and dispersion count 2^-28 s.
pub fn reading(words: &mut Words) -> Parsed<Answer> {
    reading_of_counts(words, 28)
}

/// Of the header of NTPv3 and NTPv4, where they count 2^-16 s.
pub fn reading34(words: &mut Words) -> Parsed<Answer> {
    reading_of_counts(words, 16)
}

/// The reading of two counts of 2^-scale s.
fn reading_of_counts(words: &mut Words, scale: u64) -> Parsed<Answer> {
    let delay: u32 = words.number()?;
    let dispersion: u32 = words.number()?;
    words.end()?;
    let [delay, dispersion] = [delay, dispersion].map(u64::from);
    // Half of the delay plus the dispersion, as a count of half of the unit.
    let distance = bits(delay + 2 * dispersion, scale + 1);
    let [delay, dispersion] = [delay, dispersion].map(|count| bits(count, scale));
    Ok(Answer::accepted(format!(
        "{delay:016x} {dispersion:016x} {distance:016x}"
    )))
}

/// The bits of a count of 2^-scale s, of at most 53 binary digits: the place of
/// its leading digit goes into the exponent, and those behind it are the fraction.
fn bits(count: u64, scale: u64) -> u64 {
    if count == 0 {
        return 0;
    }
    let leading = u64::from(count.ilog2());
    let exponent = 1023 + leading - scale;
    let fraction = (count << (52 - leading)) & ((1 << 52) - 1);
    exponent << 52 | fraction
}

#[cfg(test)]
mod tests {
    use super::{Answer, Parsed, Words, bits, reading, reading34};

    #[test]
    fn bits_of_document_01() {
        assert_eq!(bits(0x1000_0000, 28), 0x3FF0_0000_0000_0000);
        assert_eq!(bits(1, 28), 0x3E30_0000_0000_0000);
    }

    #[test]
    fn bits_of_the_older_scale() {
        assert_eq!(bits(0x1_0000, 16), 0x3FF0_0000_0000_0000);
        assert_eq!(bits(1, 16), 0x3EF0_0000_0000_0000);
    }

    fn answer(reading: fn(&mut Words) -> Parsed<Answer>, counts: &str) -> String {
        let mut words = Words::of(counts.as_bytes()).expect("words");
        reading(&mut words).expect("a reading").to_string()
    }

    #[test]
    fn distance_of_document_02() {
        let expected = "0 3ff0000000000000 3fe0000000000000 3ff0000000000000";
        assert_eq!(answer(reading, "268435456 134217728"), expected);
        assert_eq!(answer(reading34, "65536 32768"), expected);
    }

    #[test]
    fn half_of_an_odd_delay_keeps_its_last_digit() {
        assert_eq!(
            answer(reading, "1 0"),
            "0 3e30000000000000 0000000000000000 3e20000000000000"
        );
        assert_eq!(
            answer(reading34, "1 0"),
            "0 3ef0000000000000 0000000000000000 3ee0000000000000"
        );
    }

    #[test]
    fn bits_are_those_of_the_machine() {
        for count in [
            0,
            1,
            2,
            3,
            0x0FFF_FFFF,
            0x1000_0001,
            0xFFFF_FFFF,
            0x1_FFFF_FFFE,
            0x2_FFFF_FFFD,
        ] {
            for scale in [16, 17, 28, 29] {
                let seconds = count as f64 / (1 << scale) as f64;
                assert_eq!(bits(count, scale), seconds.to_bits());
            }
        }
    }
}
