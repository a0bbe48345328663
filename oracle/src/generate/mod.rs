//! Makes cases: random ones with structure, and short ones exhaustively.
//!
//! A module to a rule. What a case is worth the driver and the port decide;
//! here only the shapes are chosen that reach every answer and every boundary.

use cases::{CASES, Generator, generator};
use random::Random;
use std::io::{Error, Result, Write};

mod cases;
mod cuts;
mod fields;
mod header34;
mod header5;
mod judge;
mod leaves;
mod mac;
mod malformed;
mod output;
mod packets;
mod random;
mod read;
mod reading;
mod regions;
mod requests;
mod responses;
mod write;

/// Lines that are no case.
const MALFORMED: Generator = generator("malformed", 2, malformed::line, malformed::all_lines);

/// Every case of docs/REPLAY.md, and lines that are none.
fn generators() -> impl Iterator<Item = &'static Generator> {
    CASES.iter().chain([&MALFORMED])
}

/// Writes random cases of the names, or of all names where none is given.
pub fn random_cases(seed: u64, count: u64, names: &[&str], output: &mut dyn Write) -> Result<()> {
    let chosen = chosen(names)?;
    let total = chosen.iter().map(|generator| generator.weight).sum();
    let mut random = Random::new(seed);
    for _ in 0..count {
        let generator = weighted(&chosen, random.below(total));
        writeln!(output, "{}", (generator.random)(&mut random))?;
    }
    Ok(())
}

/// Writes the exhaustive cases of the names, or of all names.
pub fn exhaustive_cases(names: &[&str], output: &mut dyn Write) -> Result<()> {
    for generator in chosen(names)? {
        // A seed of its own for each name: its cases are the same whatever
        // other names are asked for.
        let mut random = Random::new(1);
        (generator.exhaustive)(&mut random, output)?;
    }
    Ok(())
}

fn chosen(names: &[&str]) -> Result<Vec<&'static Generator>> {
    let named = |name: &&str| generators().find(|known| known.name == *name);
    if let Some(unknown) = names.iter().find(|name| named(name).is_none()) {
        let known: Vec<&str> = generators().map(|known| known.name).collect();
        let known = known.join(" ");
        return Err(Error::other(format!("no case {unknown}, only {known}")));
    }
    if names.is_empty() {
        return Ok(generators().collect());
    }
    Ok(names.iter().filter_map(named).collect())
}

/// The generator into whose share of the weights a number falls.
fn weighted(generators: &[&'static Generator], mut number: usize) -> &'static Generator {
    for generator in generators {
        if number < generator.weight {
            return generator;
        }
        number -= generator.weight;
    }
    unreachable!("the number is below the sum of the weights")
}
