//! Times that can be compared: the sides take turns, and a median stands for each.

use std::hint::black_box;
use std::sync::Mutex;
use std::time::{Duration, Instant};

pub const ROUNDS: usize = 31;

/// How long a side runs in a round.
const TURN: Duration = Duration::from_millis(10);

/// The same where the lowest time stands for a side: many short rounds, of which some are left alone.
#[cfg(feature = "earlier")]
pub const SHORT_ROUNDS: usize = 500;
#[cfg(feature = "earlier")]
const SHORT_TURN: Duration = Duration::from_micros(40);

type Side<'a> = &'a mut dyn FnMut() -> u64;

/// The median of each side's nanoseconds a call.
pub fn medians<const N: usize>(mut sides: [Side; N]) -> [f64; N] {
    let calls = sides.each_mut().map(|side| calls_in(TURN, side));
    let mut times = [const { Vec::new() }; N];
    for _ in 0..ROUNDS {
        for i in 0..N {
            let time = run(&mut sides[i], calls[i]);
            times[i].push(time.as_nanos() as f64 / calls[i] as f64);
        }
    }
    times.map(|mut times| {
        times.sort_by(f64::total_cmp);
        let median = times[ROUNDS / 2];
        let middle_half = times[ROUNDS * 3 / 4] - times[ROUNDS / 4];
        SPREADS.lock().unwrap().push(middle_half / median);
        median
    })
}

/// The lowest of each side's nanoseconds a call: for differences that are smaller than the noise of a median.
#[cfg(feature = "earlier")]
pub fn lowest<const N: usize>(mut sides: [Side; N]) -> [f64; N] {
    let calls = sides.each_mut().map(|side| calls_in(SHORT_TURN, side));
    let mut lowest = [f64::INFINITY; N];
    for _ in 0..SHORT_ROUNDS {
        for i in 0..N {
            let time = run(&mut sides[i], calls[i]);
            lowest[i] = lowest[i].min(time.as_nanos() as f64 / calls[i] as f64);
        }
    }
    lowest
}

/// How far apart the middle half of the rounds of each side lay, over their median.
static SPREADS: Mutex<Vec<f64>> = Mutex::new(Vec::new());

/// How noisy all times so far are.
pub fn print_noise() {
    let mut spreads = SPREADS.lock().unwrap().clone();
    spreads.sort_by(f64::total_cmp);
    let part = |tenths: usize| 100.0 * spreads[(spreads.len() - 1) * tenths / 10];
    println!("\n## Noise\n");
    println!(
        "The middle half of a side's rounds spans {:.0} % of its median in the quieter half of the {} times \
         above, {:.0} % in nine of ten, {:.0} % in the noisiest.",
        part(5),
        spreads.len(),
        part(9),
        part(10),
    );
}

fn calls_in(turn: Duration, side: &mut Side) -> u32 {
    let mut calls = 16;
    while run(side, calls) < turn {
        calls *= 2;
    }
    calls
}

fn run(side: &mut Side, calls: u32) -> Duration {
    let start = Instant::now();
    for _ in 0..calls {
        black_box(side());
    }
    start.elapsed()
}
