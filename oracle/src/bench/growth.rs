//! How the cost grows: tables, and a plot of them.

use crate::packet::bench as rust;
use crate::packets::{self, Packet, ToWrite};
use crate::plot::{self, Point, Series};
use crate::port;
use crate::timing::{ROUNDS, medians};
use lobzhinar::ffi::TABLE;

/// Up to as many fields as a table holds.
const COUNTS: [usize; 14] = [0, 1, 2, 4, 8, 16, 24, 32, 48, 64, 80, 96, 112, TABLE];
const LENGTHS: [usize; 7] = [64, 1024, 4096, 16_384, 32_768, 49_152, 65_480];

/// What grows: a title, what is counted, the sizes, and the times for a size.
struct Growth {
    title: &'static str,
    unit: &'static str,
    sizes: &'static [usize],
    time: fn(usize) -> Times,
}

/// The times of both sides. The reader's are those with tables cleared whole, and `again` is with tables used again.
struct Times {
    rust: f64,
    port: f64,
    again: Option<f64>,
}

const GROWTHS: [Growth; 5] = [
    Growth {
        title: "Reading fields with 16 bytes of message each",
        unit: "fields",
        sizes: &COUNTS,
        time: |count| reading(&packets::plain(count, 16)),
    },
    Growth {
        title: "Reading one field",
        unit: "bytes of message",
        sizes: &LENGTHS,
        time: |length| reading(&packets::plain(1, length)),
    },
    Growth {
        title: "Reading one placeholder, whose zeros are looked at",
        unit: "bytes of message",
        sizes: &LENGTHS,
        time: |length| reading(&packets::placeholder(length)),
    },
    Growth {
        title: "Writing fields with 16 bytes of data each",
        unit: "fields",
        sizes: &COUNTS,
        time: |count| writing(&packets::plain_to_write(count, 16)),
    },
    Growth {
        title: "Writing one field",
        unit: "bytes of data",
        sizes: &LENGTHS,
        time: |length| writing(&packets::plain_to_write(1, length)),
    },
];

fn reading(packet: &Packet) -> Times {
    let side = rust::Reader::new(packet);
    let mut whole = port::Reader::new(packet);
    let mut used = port::Reader::new(packet);
    let name = &packet.name;
    assert_eq!(side.read(), whole.read(), "{name}: the two sides differ");
    let [rust, port, again] = medians([&mut || side.read(), &mut || whole.read(), &mut || {
        used.read_again()
    }]);
    Times {
        rust,
        port,
        again: Some(again),
    }
}

/// Writing fields, both stages.
fn writing(what: &ToWrite) -> Times {
    let mut theirs = rust::Writer::new(what, 65_535);
    let mut ours = port::Writer::new(what, 65_535);
    let name = what.name;
    assert_eq!(theirs.write(), ours.write(), "{name}: the two sides differ");
    assert!(theirs.out == ours.out, "{name}: the two sides differ");
    let [rust, port] = medians([&mut || theirs.write(), &mut || ours.write()]);
    Times {
        rust,
        port,
        again: None,
    }
}

/// Prints the tables, and writes the plot to a file. The caption says where and when it was timed.
pub fn print_and_plot(path: &str, caption: &str) {
    println!("\n## How the cost grows");
    let all = GROWTHS.map(|growth| timed(&growth));
    let caption = format!(
        "{caption}. A point is the median of {ROUNDS} rounds in which the sides take turns."
    );
    std::fs::write(path, plot::draw(&all, &caption)).expect("the plot can be written");
}

/// Times and prints the sizes. The plot has the times with tables cleared whole.
fn timed(growth: &Growth) -> Series {
    println!("\n### {}\n", growth.title);
    let points = growth.sizes.iter().enumerate().map(|(i, &size)| {
        let times = (growth.time)(size);
        if i == 0 {
            print_head(growth.unit, times.again.is_some());
        }
        print_row(size, &times);
        let Times { rust, port, .. } = times;
        Point { size, rust, port }
    });
    Series {
        title: growth.title,
        unit: growth.unit,
        points: points.collect(),
    }
}

fn print_head(unit: &str, has_tables: bool) {
    let more = if has_tables {
        [" port, tables used again | ratio |", "---|---|"]
    } else {
        ["", ""]
    };
    println!("| {unit} | Rust | port | ratio |{}", more[0]);
    println!("|---|---|---|---|{}", more[1]);
}

fn print_row(size: usize, Times { rust, port, again }: &Times) {
    print!("| {size} | {rust:.0} | {port:.0} | {:.2} |", rust / port);
    match again {
        Some(again) => println!(" {again:.0} | {:.2} |", rust / again),
        None => println!(),
    }
}
