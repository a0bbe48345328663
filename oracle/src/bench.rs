//! The benchmark: ntp-proto's side and the port's, in one process.
//!
//! `tools/bench` builds it with the port's library linked in, and runs it with the folder of the stored
//! lists and, if asked to, a file to plot to and the plot's caption. `tools/bench-scan` links an earlier
//! library in too, and runs it with `scan` and that folder: it then times the scans of both. Tables go to
//! standard output, and what is timed next to standard error.

// The header's file asks a crate `rand` for random cookies: it is this one.
extern crate self as rand;

#[path = "bench/bound.rs"]
mod bound;
#[path = "bench/cuts.rs"]
mod cuts;
#[path = "bench/growth.rs"]
mod growth;
#[path = "bench/journal.rs"]
mod journal;
#[path = "bench/packets.rs"]
mod packets;
#[path = "bench/plot.rs"]
mod plot;
#[path = "bench/port.rs"]
mod port;
#[path = "bench/real.rs"]
mod real;
#[cfg(feature = "earlier")]
#[path = "bench/scan.rs"]
mod scan;
#[path = "bench/stack.rs"]
mod stack;
#[path = "bench/stacks.rs"]
mod stacks;
#[path = "bench/svg.rs"]
mod svg;
#[path = "bench/timing.rs"]
mod timing;

#[allow(dead_code)]
mod format;
#[allow(dead_code)]
mod io;
mod keyset;
#[allow(dead_code)]
mod packet;
#[allow(dead_code)]
mod stand_ins;

pub use stand_ins::{
    NtpClock, NtpDuration, NtpLeapIndicator, NtpTimestamp, PollInterval, SystemSnapshot, random,
};

use packets::{NTP4_HEADER, NTP5_HEADER, Packet};
use std::hint::black_box;
use std::path::Path;
use timing::medians;

/// A part of the benchmark and its name.
type Part<'a> = (&'static str, Box<dyn Fn() + 'a>);

fn main() {
    let words: Vec<String> = std::env::args().skip(1).collect();
    let (lists, plot) = match &words[..] {
        #[cfg(feature = "earlier")]
        [word, lists] if word == "scan" => return scan::print(Path::new(lists)),
        [lists] => (lists, None),
        [lists, path, caption] => (lists, Some((path, caption))),
        _ => {
            eprintln!(
                "use: bench LISTS [PLOT CAPTION], or with an earlier library bench scan LISTS"
            );
            std::process::exit(2);
        }
    };
    let real = real::packets(Path::new(lists));
    let mut parts: Vec<Part> = vec![
        ("reading", Box::new(print_made)),
        ("reading real packets", Box::new(|| print_real(&real))),
        ("writing", Box::new(print_writing)),
        ("the headers", Box::new(print_headers)),
        ("the journal", Box::new(journal::print)),
        ("proposed cuts", Box::new(|| cuts::print(&real))),
        ("the boundary", Box::new(print_boundary)),
        ("stack", Box::new(stacks::print)),
    ];
    if let Some((path, caption)) = plot {
        let growth = || growth::print_and_plot(path, caption);
        parts.push(("packets that grow", Box::new(growth)));
    }
    println!(
        "Nanoseconds a call: the median of {} rounds, in which the sides take turns.",
        timing::ROUNDS
    );
    println!("A ratio is the Rust's time over the port's: above 1 the port is faster.");
    for (i, (name, part)) in parts.iter().enumerate() {
        eprintln!("bench: {name} ({} of {})", i + 1, parts.len());
        part();
    }
    timing::print_noise();
}

fn print_made() {
    print_reading(&packets::all(), "Reading");
}

fn print_real(packets: &[Packet]) {
    print_reading(packets, "Reading packets of real servers and clients");
    print_all(packets);
}

fn print_reading(packets: &[Packet], title: &str) {
    println!("\n## {title}\n");
    println!(
        "| Packet | bytes | Rust | port | ratio | port, tables used again | ratio | bytes cleared then | survey | stack of a call |"
    );
    println!("|---|---|---|---|---|---|---|---|---|---|");
    for packet in packets {
        print_row(packet);
    }
}

/// All packets, one after the other.
fn print_all(packets: &[Packet]) {
    let rust: Vec<_> = packets.iter().map(packet::bench::Reader::new).collect();
    let mut whole: Vec<_> = packets.iter().map(port::Reader::new).collect();
    let mut again: Vec<_> = packets.iter().map(port::Reader::new).collect();
    let [theirs, cleared, used] = medians([
        &mut || rust.iter().map(|side| side.read()).sum(),
        &mut || whole.iter_mut().map(|side| side.read()).sum(),
        &mut || again.iter_mut().map(|side| side.read_again()).sum(),
    ])
    .map(|time| time / packets.len() as f64);
    println!(
        "| all {}, one after the other | | {theirs:.1} | {cleared:.1} | {:.2} | {used:.1} | {:.2} | | | |",
        packets.len(),
        theirs / cleared,
        theirs / used,
    );
}

fn print_headers() {
    use lobzhinar::{NtpHeaderV3V4, NtpHeaderV5};
    print_header::<packet::v5::NtpHeaderV5, NtpHeaderV5>("The NTPv5 header", &NTP5_HEADER);
    let title = "The header of NTPv3 and NTPv4";
    print_header::<packet::NtpHeaderV3V4, NtpHeaderV3V4>(title, &NTP4_HEADER);
}

fn print_header<Rust, Port>(title: &str, bytes: &[u8])
where
    Rust: packet::bench::AnyHeader,
    Port: port::AnyHeader + Sync + Send,
{
    println!("\n## {title}\n");
    println!("| | Rust | port | ratio | port, through the binding | ratio | stack of a call |");
    println!("|---|---|---|---|---|---|---|");
    let mut rust = packet::bench::Header::<Rust>::new(bytes);
    let ours = port::Header::<Port>::new(bytes);
    let mut written = port::Header::<Port>::new(bytes);
    let depth = stack::depth(|| {
        black_box(ours.raw());
    });
    let [theirs, raw, bound] =
        medians([&mut || rust.read(), &mut || ours.raw(), &mut || ours.read()]);
    println!(
        "| read | {theirs:.1} | {raw:.1} | {:.1} | {bound:.1} | {:.1} | {depth} |",
        theirs / raw,
        theirs / bound
    );
    let depth = stack::depth(|| {
        black_box(written.write());
    });
    let [theirs, bound] = medians([&mut || rust.write(), &mut || written.write()]);
    assert!(rust.out == written.out, "the two sides differ");
    println!(
        "| write | {theirs:.1} | | | {bound:.1} | {:.1} | {depth} |",
        theirs / bound
    );
    let [reading] = medians([&mut || ours.reading()]);
    println!("| time reading, which the Rust has not | | | | {reading:.1} | | |");
}

/// What a call costs beside the core: where a version is none, the boundary answers itself.
fn print_boundary() {
    println!("\n## What the boundary costs\n");
    println!("| A call with a version that is none | port |");
    println!("|---|---|");
    let packets = packets::all();
    let mut reader = port::Reader::of_no_version(&packets[0]);
    let what = packets::plain_to_write(0, 0);
    let mut first = port::Writer::of_no_version(&what);
    let mut second = port::Writer::of_no_version(&what);
    let [read, one, two] = medians([
        &mut || reader.read_again(),
        &mut || first.refused_one(),
        &mut || second.refused_two(),
    ]);
    println!("| `ntp_raw_read_128`, nothing in use in the tables | {read:.1} |");
    println!("| `ntp_raw_stage_one` | {one:.1} |");
    println!("| `ntp_raw_stage_two` | {two:.1} |");
    print_binding(&packets[1..3]);
}

/// What the binding adds: the same packets by the library's functions and by the public interface, the tables cleared
/// whole. The core is the survey, reading, and all fields.
fn print_binding(packets: &[Packet]) {
    println!();
    println!(
        "| Packet | `ntp_raw_read_128` alone | core | binding, step by step | more | in one call | more | copying the plaintext | looking at the context |"
    );
    println!("|---|---|---|---|---|---|---|---|---|");
    for packet in packets {
        let mut alone = port::Reader::new(packet);
        let mut core = port::Reader::new(packet);
        let [mut steps, mut once, mut copying, mut server] =
            [(); 4].map(|()| bound::Reader::new(packet));
        let sums = [
            core.core(),
            steps.step_by_step(),
            once.at_once(),
            copying.at_once_copying(),
            server.at_once_with_context(),
        ];
        let name = &packet.name;
        assert!(
            sums.iter().all(|sum| *sum == sums[0]),
            "{name}: the binding differs, {sums:?}"
        );
        let [alone, core, steps, once, copying, server] = medians([
            &mut || alone.read_alone(),
            &mut || core.core(),
            &mut || steps.step_by_step(),
            &mut || once.at_once(),
            &mut || copying.at_once_copying(),
            &mut || server.at_once_with_context(),
        ]);
        println!(
            "| {name} | {alone:.1} | {core:.1} | {steps:.1} | {:.1} | {once:.1} | {:.1} | {copying:.1} | {server:.1} |",
            steps - core,
            once - core,
        );
    }
}

fn print_writing() {
    println!("\n## Writing, both stages\n");
    println!("| Packet | bytes | Rust | port | ratio | stack of a call |");
    println!("|---|---|---|---|---|---|");
    for what in packets::all_to_write() {
        let mut rust = packet::bench::Writer::new(&what, 4096);
        let mut ours = port::Writer::new(&what, 4096);
        let bytes = rust.write();
        assert_eq!(bytes, ours.write(), "{}: the two sides differ", what.name);
        assert!(rust.out == ours.out, "{}: the two sides differ", what.name);
        let depth = stack::depth(|| {
            std::hint::black_box(ours.write());
        });
        let [theirs, port] = medians([&mut || rust.write(), &mut || ours.write()]);
        println!(
            "| {} | {bytes} | {theirs:.0} | {port:.0} | {:.1} | {depth} |",
            what.name,
            theirs / port,
        );
    }
}

fn print_row(packet: &Packet) {
    let rust = packet::bench::Reader::new(packet);
    let mut whole = port::Reader::new(packet);
    let mut again = port::Reader::new(packet);
    assert_eq!(
        rust.read(),
        whole.read(),
        "{}: the two sides differ",
        packet.name
    );
    assert_eq!(
        rust.read(),
        again.read_again(),
        "{}: the two sides differ",
        packet.name
    );
    let depth = stack::depth(|| {
        std::hint::black_box(again.read_again());
    });
    let mut surveyed = port::Reader::new(packet);
    let [theirs, cleared, used, survey] = medians([
        &mut || rust.read(),
        &mut || whole.read(),
        &mut || again.read_again(),
        &mut || surveyed.survey(),
    ]);
    println!(
        "| {} | {} | {theirs:.1} | {cleared:.1} | {:.2} | {used:.1} | {:.2} | {} | {survey:.1} | {depth} |",
        packet.name,
        packet.bytes.len(),
        theirs / cleared,
        theirs / used,
        again.bytes_in_use(),
    );
}
