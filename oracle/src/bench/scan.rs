//! The scans of a placeholder and of a DraftIdentification, by an earlier library and by this one.

use crate::packet::bench as rust;
use crate::packets::{self, Packet};
use crate::port::Reader;
use crate::real;
use crate::timing::{self, lowest};
use std::path::Path;

const PLACEHOLDER: u16 = 0x0304;
const DRAFT_IDENTIFICATION: u16 = 0xF5FF;

/// Lengths 1 to SHORT are timed, then LONG.
const SHORT: usize = 130;
const LONG: [usize; 2] = [1024, 65_480];

/// About a clock cycle of the machine of docs/PERFORMANCE.md, in nanoseconds.
const CYCLE: f64 = 0.3;

/// What one field is, and its message of a given length.
struct Field {
    title: &'static str,
    kind: u16,
    message: fn(usize) -> Vec<u8>,
}

const FIELDS: [Field; 5] = [
    Field {
        title: "A placeholder of zeros",
        kind: PLACEHOLDER,
        message: |length| vec![0; length],
    },
    Field {
        title: "A placeholder whose last byte is not zero, refused with 2",
        kind: PLACEHOLDER,
        message: |length| with(vec![0; length], length - 1, 1),
    },
    Field {
        title: "A placeholder whose first byte is not zero, refused with 2",
        kind: PLACEHOLDER,
        message: |length| with(vec![0; length], 0, 1),
    },
    Field {
        title: "A DraftIdentification of ASCII",
        kind: DRAFT_IDENTIFICATION,
        message: |length| vec![b'd'; length],
    },
    Field {
        title: "A DraftIdentification whose first byte is not ASCII, refused with 4",
        kind: DRAFT_IDENTIFICATION,
        message: |length| with(vec![b'd'; length], 0, 0x80),
    },
];

fn with(mut bytes: Vec<u8>, at: usize, byte: u8) -> Vec<u8> {
    bytes[at] = byte;
    bytes
}

pub fn print(lists: &Path) {
    let parts = FIELDS.len() + 1;
    println!(
        "Nanoseconds a call: the lowest of {} short rounds, in which the sides take turns.",
        timing::SHORT_ROUNDS
    );
    eprintln!("bench-scan: packets (1 of {parts})");
    print_packets(lists);
    for (i, field) in FIELDS.iter().enumerate() {
        eprintln!("bench-scan: {} ({} of {parts})", field.title, i + 2);
        print_field(field);
    }
}

/// The real packets with a placeholder and the packets of the other benchmark, the tables cleared whole and used
/// again.
fn print_packets(lists: &Path) {
    println!("\n## Packets\n");
    println!(
        "| Packet | placeholders | Rust | before | after | before / after | Rust / after | used again: before | after | before / after | Rust / after |"
    );
    println!("|---|---|---|---|---|---|---|---|---|---|---|");
    for packet in real::packets(lists) {
        let count = count_placeholders(&packet);
        if count > 0 {
            print_packet(&packet, count);
        }
    }
    for packet in packets::all() {
        print_packet(&packet, count_placeholders(&packet));
    }
}

fn print_packet(packet: &Packet, count: usize) {
    let rust = rust::Reader::new(packet);
    let [mut old, mut old_again] = [(); 2].map(|()| Reader::of_earlier(packet));
    let [mut new, mut new_again] = [(); 2].map(|()| Reader::new(packet));
    let name = &packet.name;
    assert_eq!(rust.read(), new.read(), "{name}: the two sides differ");
    assert_eq!(old.read(), new.read(), "{name}: the libraries differ");
    let [rust, old, new, old_again, new_again] = lowest([
        &mut || rust.read(),
        &mut || old.read(),
        &mut || new.read(),
        &mut || old_again.read_again(),
        &mut || new_again.read_again(),
    ]);
    println!(
        "| {name} | {count} | {rust:.0} | {old:.0} | {new:.0} | {:.1} | {:.1} | {old_again:.0} | {new_again:.0} | {:.1} | {:.1} |",
        old / new,
        rust / new,
        old_again / new_again,
        rust / new_again,
    );
}

/// Counts the placeholders of a packet, up to the last 24 bytes: no packet here has a shorter one.
fn count_placeholders(packet: &Packet) -> usize {
    let mut fields = &packet.bytes[packets::HEADER..];
    let mut count = 0;
    while fields.len() > 24 {
        let kind = u16::from_be_bytes([fields[0], fields[1]]);
        let length = u16::from_be_bytes([fields[2], fields[3]]);
        count += usize::from(kind == PLACEHOLDER);
        fields = &fields[usize::from(length).next_multiple_of(4)..];
    }
    count
}

/// Before and after, for each length.
fn print_field(field: &Field) {
    println!("\n## {}\n", field.title);
    println!("Before and after, the tables used again.\n");
    let lengths: Vec<usize> = (1..=SHORT).chain(LONG).collect();
    let times: Vec<[f64; 2]> = lengths.iter().map(|&length| time(field, length)).collect();
    println!("| bytes | 1 | 2 | 3 | 4 | 5 | 6 | 7 | 8 | 9 | 10 |");
    println!("|---|---|---|---|---|---|---|---|---|---|---|");
    for (row, ten) in times[..SHORT].chunks(10).enumerate() {
        let cells: Vec<String> = ten.iter().map(cell).collect();
        println!("| {} + | {} |", row * 10, cells.join(" | "));
    }
    println!("\n| bytes | before, after |\n|---|---|");
    for (length, both) in lengths.iter().zip(&times).skip(SHORT) {
        println!("| {length} | {} |", cell(both));
    }
    print_slower(&lengths, &times);
}

/// Where it is slower than before, by more than a cycle.
fn print_slower(lengths: &[usize], times: &[[f64; 2]]) {
    let more: Vec<(f64, usize)> = lengths
        .iter()
        .zip(times)
        .map(|(&length, [old, new])| (new - old, length))
        .filter(|(more, _)| *more > CYCLE)
        .collect();
    match more.iter().max_by(|a, b| a.0.total_cmp(&b.0)) {
        Some((most, length)) => println!(
            "\nSlower by more than {CYCLE} ns at {} lengths, most at {length} bytes, by {most:.1} ns.",
            more.len()
        ),
        None => println!("\nAt no length slower by more than {CYCLE} ns."),
    }
}

fn cell([old, new]: &[f64; 2]) -> String {
    format!("{old:.1} {new:.1}")
}

fn time(field: &Field, length: usize) -> [f64; 2] {
    let packet = packets::one_field(field.kind, (field.message)(length));
    let mut old = Reader::of_earlier(&packet);
    let mut new = Reader::new(&packet);
    let title = field.title;
    assert_eq!(old.read(), new.read(), "{title}: the libraries differ");
    lowest([&mut || old.read_again(), &mut || new.read_again()])
}
