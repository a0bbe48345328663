//! Cases for the time readings of both headers.

use super::random::Random;
use std::io::{Result, Write};

pub fn reading(random: &mut Random) -> String {
    format!("reading {}", counts(random))
}

pub fn reading34(random: &mut Random) -> String {
    format!("reading34 {}", counts(random))
}

/// A delay and a dispersion.
fn counts(random: &mut Random) -> String {
    let [delay, dispersion] = [0; 2].map(|_: u8| count(random));
    format!("{delay} {dispersion}")
}

/// A count of any number of binary digits.
fn count(random: &mut Random) -> u32 {
    let digits = random.below(33);
    let any = (random.next() & u64::from(u32::MAX)) as u32;
    let narrow = any.checked_shr(32 - digits as u32).unwrap_or(0);
    random.pick(&[narrow, narrow, narrow, any, 0, 1, u32::MAX])
}

pub fn all_readings(_: &mut Random, output: &mut dyn Write) -> Result<()> {
    all_counts("reading", output)
}

pub fn all_readings34(_: &mut Random, output: &mut dyn Write) -> Result<()> {
    all_counts("reading34", output)
}

/// Every pair of counts next to a power of two.
fn all_counts(name: &str, output: &mut dyn Write) -> Result<()> {
    let powers = (0..32).map(|digit| 1u32 << digit);
    let mut counts: Vec<u32> = powers
        .flat_map(|power| [power - 1, power, power + 1])
        .collect();
    counts.push(u32::MAX);
    for delay in &counts {
        for dispersion in &counts {
            writeln!(output, "{name} {delay} {dispersion}")?;
        }
    }
    Ok(())
}
