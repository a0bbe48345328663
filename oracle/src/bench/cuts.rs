//! The judge of proposed cuts, which ntp-proto does not have: the table and the two lists, and beside them the survey,
//! which walks over the same packet.

use crate::packets::Packet;
use crate::timing::medians;
use lobzhinar::{Cut, ExtensionHeaderVersion, Opening, SealTable, Workspace, deserialize, survey};
use std::hint::black_box;

/// As many fields of 4 bytes as a packet holds.
const MOST_FIELDS: usize = 16_383;
const MILLION: usize = 1_000_000;

/// A list that is proposed for a packet, in both forms, and which pair is wrong if one is.
struct Proposal<'a> {
    what: &'a str,
    packet: lobzhinar::Packet<'a>,
    cuts: Vec<Cut>,
    wrong_pair: Option<usize>,
}

impl Proposal<'_> {
    fn print(&self) {
        let Self { what, packet, .. } = self;
        let cuts = &self.cuts[..];
        let offsets: Vec<usize> = cuts.iter().map(|cut| cut.field_offset).collect();
        let lengths: Vec<usize> = cuts.iter().map(|cut| cut.wire_length).collect();
        let by_table = || packet.is_cut(black_box(cuts));
        let by_lists = || packet.is_cut_lists(black_box(&offsets), black_box(&lengths));
        let is_cut = self.wrong_pair.is_none();
        assert_eq!([by_table(), by_lists()], [is_cut; 2], "{what}");
        let mut seals = SealTable::new();
        let [table, lists, surveyed] = medians([
            &mut || u64::from(by_table()),
            &mut || u64::from(by_lists()),
            &mut || survey(*packet, &mut seals).seal_count() as u64,
        ]);
        let pairs = self.wrong_pair.map_or(cuts.len(), |index| index + 1);
        println!(
            "| {what} | {} | {pairs} | {} | {table:.1} | {lists:.1} | {:.2} | {surveyed:.1} |",
            cuts.len(),
            if is_cut { "yes" } else { "no" },
            table / pairs as f64,
        );
    }
}

pub fn print(real: &[Packet]) {
    println!("\n## Proposed cuts\n");
    println!(
        "ntp-proto judges no lists. Beside each time is that of a survey of the same packet.\n"
    );
    println!(
        "| List | pairs | up to the first wrong one | verdict | table | two lists | table, ns a pair | survey |"
    );
    println!("|---|---|---|---|---|---|---|---|");
    print_real(real);
    print_longest();
}

/// Requests of a real client, each with the cut that the reader finds.
fn print_real(real: &[Packet]) {
    for name in ["chrony-one-request", "chrony-eight-request"] {
        let found = real.iter().find(|packet| packet.name == name);
        let packet = lobzhinar::Packet::v4(&found.expect("it is in the stored list").bytes);
        let mut workspace = Workspace::new();
        let read = deserialize(packet, &mut workspace, &mut [], |_, _, _| Opening::NoKey);
        let Err(lobzhinar::ReadError::DecryptError(data)) = read else {
            unreachable!("its sealed field has no key")
        };
        let cuts = data.untrusted().map(|field| Cut {
            field_offset: field.packet_offset().bytes_from_packet_start(),
            wire_length: field.wire_length(),
        });
        Proposal {
            what: name,
            packet,
            cuts: cuts.collect(),
            wrong_pair: None,
        }
        .print();
    }
}

/// The packet with most fields, and lists of which the first pairs are right.
fn print_longest() {
    let bytes = [0x20, 0x01, 0, 4].repeat(MOST_FIELDS);
    let packet = lobzhinar::Packet::with_header(ExtensionHeaderVersion::V5, 0, &bytes);
    let right = |count: usize| -> Vec<Cut> {
        let cut = |index| Cut {
            field_offset: 4 * index,
            wire_length: 4,
        };
        (0..count).map(cut).collect()
    };
    let with_length = |mut cuts: Vec<Cut>, index: usize| {
        cuts[index].wire_length = 8;
        cuts
    };
    for (what, cuts, wrong_pair) in [
        ("the longest packet", right(MOST_FIELDS), None),
        (
            "its last length is wrong",
            with_length(right(MOST_FIELDS), MOST_FIELDS - 1),
            Some(MOST_FIELDS - 1),
        ),
        (
            "a million pairs, which go on after the last field",
            right(MILLION),
            Some(MOST_FIELDS),
        ),
        (
            "a million pairs, the first length is wrong",
            with_length(right(MILLION), 0),
            Some(0),
        ),
    ] {
        Proposal {
            what,
            packet,
            cuts,
            wrong_pair,
        }
        .print();
    }
}
