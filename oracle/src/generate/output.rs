//! Outputs to lend to a writer: with the room it needs, less or more.

use super::random::Random;
use crate::format::hex;

/// An output has as many bytes, and more of them do not count.
const MOST: usize = 65_535;

/// The words AT and OUT for a write that needs so many bytes.
pub fn output(random: &mut Random, needed: usize) -> String {
    if random.one_in(400) {
        return too_long(random, needed);
    }
    let start = match random.below(8) {
        0..4 => 0,
        4 | 5 => random.between(1, 9),
        6 => 48,
        _ => return ill_placed(random, needed),
    };
    let whole = start + needed;
    let length = match random.below(8) {
        0..3 => whole,
        3 => whole + 1,
        4 => whole + random.below(40),
        5 | 6 => whole.saturating_sub(1),
        _ => random.below(whole + 1),
    };
    words(random, start as u64, length)
}

/// A start at the end of the output or past it.
fn ill_placed(random: &mut Random, needed: usize) -> String {
    let length = random.below(needed + 8);
    let past = random.pick(&[0, 0, 1, 2, 100, 65_536]);
    if random.one_in(20) {
        return words(random, u64::MAX, length);
    }
    words(random, length as u64 + past, length)
}

/// An output of which not every byte counts: the start lets the write end where
/// those that count end, or is itself behind them.
fn too_long(random: &mut Random, needed: usize) -> String {
    let length = random.too_long();
    let start = match random.below(8) {
        0..4 => (MOST + random.below(3)).saturating_sub(needed + 1),
        4 => MOST,
        5 => MOST + 1,
        6 => random.between(MOST, length),
        _ => length + 1,
    };
    words(random, start as u64, length)
}

/// Outputs of which not every byte counts.
pub fn all_too_long(random: &mut Random, needed: usize) -> Vec<String> {
    let starts = [
        MOST - needed,
        MOST + 1 - needed,
        MOST,
        MOST + 1,
        66_000,
        70_000,
        70_001,
    ];
    let mut outputs = starts
        .map(|start| words(random, start as u64, 70_000))
        .to_vec();
    outputs.push(words(random, (MOST + 1 - needed) as u64, MOST + 1));
    outputs
}

/// Exactly the room needed, one byte less, one more, and none at all.
pub fn all_outputs(random: &mut Random, start: usize, needed: usize) -> Vec<String> {
    let whole = start + needed;
    let lengths = [whole, whole.saturating_sub(1), whole + 1, start];
    lengths
        .map(|length| words(random, start as u64, length))
        .to_vec()
}

fn words(random: &mut Random, start: u64, length: usize) -> String {
    format!("{start} {}", hex(&random.filling(length)))
}
