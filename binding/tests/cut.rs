//! Proposed cuts: the table and the two lists, against a cut of the test's own.

use lobzhinar::{
    Cut, ExtensionHeaderVersion, Field, Opening, Packet, Refusal, SealTable, Untrusted, Workspace,
    deserialize, survey,
};

const V4: ExtensionHeaderVersion = ExtensionHeaderVersion::V4;
const V5: ExtensionHeaderVersion = ExtensionHeaderVersion::V5;

fn cut(field_offset: usize, wire_length: usize) -> Cut {
    Cut {
        field_offset,
        wire_length,
    }
}

/// A header, so many fields of 4 bytes, and bytes that are no field.
fn bytes_of(header_size: usize, count: usize, rest_len: usize) -> Vec<u8> {
    let fields = [0x20, 0x01, 0, 4].repeat(count);
    [vec![0xff; header_size], fields, vec![0xff; rest_len]].concat()
}

/// Fields of 4 bytes, from the header on.
fn cuts_of(header_size: usize, count: usize) -> Vec<Cut> {
    (0..count).map(|i| cut(header_size + 4 * i, 4)).collect()
}

/// The verdict, which is the same for the table and for the lists.
fn verdict(packet: Packet<'_>, cuts: &[Cut]) -> bool {
    let offsets: Vec<_> = cuts.iter().map(|cut| cut.field_offset).collect();
    let lengths: Vec<_> = cuts.iter().map(|cut| cut.wire_length).collect();
    let by_table = packet.is_cut(cuts);
    assert_eq!(packet.is_cut_lists(&offsets, &lengths), by_table);
    by_table
}

/// The cut of a packet by the layout rules, in words of this test.
fn own_cut(packet: Packet<'_>) -> Option<Vec<Cut>> {
    let (bytes, mut at) = (packet.bytes(), packet.header_size());
    let is_v4 = packet.version() == V4;
    let mut cuts = vec![];
    if bytes.len() > 65535 {
        return None;
    }
    while bytes.len().checked_sub(at)? > if is_v4 { 24 } else { 0 } {
        let said = bytes.get(at + 2..at + 4)?;
        let said = usize::from(u16::from_be_bytes([said[0], said[1]]));
        if said < 4 || is_v4 && said % 4 != 0 {
            return None;
        }
        cuts.push(cut(at, said.next_multiple_of(4)));
        at += said.next_multiple_of(4);
    }
    Some(cuts)
}

/// Lists that differ from a cut in one number, or in their length, are not the cut.
fn one_list_alone(packet: Packet<'_>, cuts: &[Cut]) {
    assert!(verdict(packet, cuts));
    assert_eq!(own_cut(packet).as_deref(), Some(cuts));
    let mut changed = cuts.to_vec();
    for i in (0..cuts.len()).step_by(1 + cuts.len() / 64) {
        for added in [1, 4, 1 << 16, 1 << 32, 1 << 63, usize::MAX - 3, usize::MAX] {
            changed[i].field_offset = cuts[i].field_offset.wrapping_add(added);
            assert!(!verdict(packet, &changed), "offset {i} plus {added}");
            changed[i] = cuts[i];
            changed[i].wire_length = cuts[i].wire_length.wrapping_add(added);
            assert!(!verdict(packet, &changed), "length {i} plus {added}");
            changed[i] = cuts[i];
        }
    }
    changed.push(cut(packet.header_size() + 4 * cuts.len(), 4));
    assert!(!verdict(packet, &changed));
    if let Some((_, fewer)) = cuts.split_last() {
        assert!(!verdict(packet, fewer));
        assert!(!verdict(packet, &cuts[1..]));
        assert!(!verdict(packet, &[]));
    }
}

#[test]
fn a_packet_with_any_number_of_fields_has_one_cut() {
    for header_size in [0, 1, 2, 3, 47, 48] {
        for count in [0, 1, 2, 127, 128, 129] {
            let cuts = cuts_of(header_size, count);
            let (v4, v5) = (
                bytes_of(header_size, count, 24),
                bytes_of(header_size, count, 0),
            );
            one_list_alone(Packet::with_header(V4, header_size, &v4), &cuts);
            one_list_alone(Packet::with_header(V5, header_size, &v5), &cuts);
        }
    }
    // As many as 65,535 bytes hold.
    let (v4, v5) = (bytes_of(0, 16378, 23), bytes_of(0, 16383, 0));
    one_list_alone(Packet::with_header(V4, 0, &v4), &cuts_of(0, 16378));
    one_list_alone(Packet::with_header(V5, 0, &v5), &cuts_of(0, 16383));
}

#[test]
fn lists_of_unequal_length_are_no_cut() {
    let bytes = bytes_of(0, 2, 0);
    let packet = Packet::with_header(V5, 0, &bytes);
    let (offsets, lengths) = ([0, 4, 8], [4, 4, 4]);
    for i in 0..=3 {
        for k in 0..=3 {
            let is_cut = packet.is_cut_lists(&offsets[..i], &lengths[..k]);
            assert_eq!(is_cut, (i, k) == (2, 2), "{i} offsets, {k} lengths");
        }
    }
}

#[test]
fn a_longer_list_whose_first_pairs_fit_is_no_cut() {
    let bytes = bytes_of(0, 2, 0);
    let packet = Packet::with_header(V5, 0, &bytes);
    // As a number of 16 bits, the length of this list is 2.
    let cuts = cuts_of(0, 65_536 + 2);
    assert!(verdict(packet, &cuts[..2]));
    assert!(!verdict(packet, &cuts));
}

#[test]
fn a_remainder_is_not_listed() {
    for rest_len in 0..=28 {
        let bytes = bytes_of(48, 0, rest_len);
        assert_eq!(verdict(Packet::v4(&bytes), &[]), rest_len <= 24);
        assert_eq!(verdict(Packet::v5(&bytes), &[]), rest_len == 0);
    }
    // The last six of seven fields are the remainder.
    let bytes = bytes_of(48, 7, 0);
    for count in 0..=7 {
        let cuts = cuts_of(48, count);
        assert_eq!(verdict(Packet::v4(&bytes), &cuts), count == 1);
        assert_eq!(verdict(Packet::v5(&bytes), &cuts), count == 7);
    }
}

#[test]
fn a_header_past_the_end_and_a_longer_packet_have_no_cut() {
    let bytes = bytes_of(0, 16384, 0);
    for version in [V4, V5] {
        for (header_size, yes) in [(28, true), (29, false), (usize::MAX, false)] {
            let packet = Packet::with_header(version, header_size, &bytes[..28]);
            assert_eq!(verdict(packet, &[]), yes);
        }
        for cuts in [&cuts_of(0, 16384)[..], &cuts_of(0, 16378), &[]] {
            assert!(!verdict(Packet::with_header(version, 0, &bytes), cuts));
        }
        let longer = Packet::with_header(version, bytes.len(), &bytes);
        assert!(!verdict(longer, &[]));
    }
}

#[test]
fn padding_counts() {
    let bytes = [0x20, 0x01, 0, 5, 1, 0xff, 0xff, 0xff];
    let packet = Packet::with_header(V5, 0, &bytes);
    assert!(verdict(packet, &[cut(0, 8)]));
    assert!(!verdict(packet, &[cut(0, 5)]));
}

/// Every length that one byte states, in a region that has room for the field, and in one that is a byte shorter.
#[test]
fn a_length_that_is_wrong_has_no_cut() {
    for said in 0..=255 {
        let taken = usize::from(said).next_multiple_of(4);
        for (version, rest_len) in [(V4, 24), (V5, 0)] {
            let mut bytes = vec![0xff; taken.max(4) + rest_len];
            bytes[..4].copy_from_slice(&[0x20, 0x01, 0, said]);
            let is_length = said >= 4 && (version == V5 || said % 4 == 0);
            let packet = Packet::with_header(version, 0, &bytes);
            for wire_length in [taken, usize::from(said), 4] {
                let yes = is_length && wire_length == taken;
                assert_eq!(verdict(packet, &[cut(0, wire_length)]), yes, "{said}");
            }
            let shorter = &bytes[..taken.saturating_sub(1)];
            let packet = Packet::with_header(version, 0, shorter);
            assert!(!verdict(packet, &[cut(0, taken)]), "{said}");
        }
    }
}

#[test]
fn contents_are_not_judged() {
    let lengths_in_a_seal = [4, 4, 0, 8, 0, 5, 0, 5];
    let placeholder = [3, 4, 0, 8, 0, 0, 0, 1];
    let seals = [4, 4, 0, 8, 0, 0, 0, 0].repeat(129);
    for (bytes, surveyed) in [
        (&lengths_in_a_seal[..], Some(Refusal::IncorrectLength)),
        (&placeholder, None),
        (&seals, Some(Refusal::TooManyFields)),
    ] {
        let packet = Packet::with_header(V5, 0, bytes);
        let mut table = SealTable::new();
        let fault = survey(packet, &mut table).fault();
        assert_eq!(fault.map(|fault| fault.refusal), surveyed);
        let cuts: Vec<_> = (0..bytes.len()).step_by(8).map(|at| cut(at, 8)).collect();
        assert!(verdict(packet, &cuts));
    }
    let mut workspace = Workspace::new();
    let packet = Packet::with_header(V5, 0, &placeholder);
    let read = deserialize(packet, &mut workspace, &mut [], |_, _, _| Opening::NoKey);
    let refusal = read.err().map(|error| error.refusal());
    assert_eq!(refusal, Some(Refusal::MalformedCookiePlaceholder));
}

/// Numbers that look random, and are the same in each run.
struct Draw(u64);

impl Draw {
    fn below(&mut self, limit: usize) -> usize {
        self.0 = self.0.wrapping_mul(6_364_136_223_846_793_005);
        self.0 = self.0.wrapping_add(1_442_695_040_888_963_407);
        usize::try_from(self.0 >> 33).unwrap() % limit
    }

    /// A packet with fields of drawn lengths, and more bytes after them.
    fn bytes(&mut self, header_size: usize) -> Vec<u8> {
        let mut bytes = vec![0; header_size];
        for _ in 0..self.below(6) {
            let said = 4 * (1 + self.below(10)) + self.below(40) / 37;
            bytes.extend([0x20, 0x01, 0, u8::try_from(said).unwrap()]);
            bytes.resize(bytes.len() + (said - 4).next_multiple_of(4), 7);
        }
        bytes.resize(bytes.len() + self.below(8) / 7 * self.below(27), 7);
        bytes
    }
}

#[test]
fn the_verdict_is_yes_of_the_cut_alone() {
    let (mut draw, mut yes) = (Draw(7), 0);
    for _ in 0..20000 {
        let header_size = draw.below(50);
        let bytes = draw.bytes(header_size);
        let packet = Packet::with_header([V4, V5][draw.below(2)], header_size, &bytes);
        let own = own_cut(packet);
        assert_eq!(fields_read(packet), own);
        let mut cuts = own.clone().unwrap_or_default();
        let i = draw.below(cuts.len() + 1);
        match (draw.below(4), cuts.get_mut(i)) {
            (0, Some(cut)) => cut.field_offset ^= 1 << draw.below(64),
            (1, Some(cut)) => cut.wire_length ^= 1 << draw.below(64),
            (2, _) => cuts.truncate(i),
            _ => {}
        }
        let is_cut = verdict(packet, &cuts);
        assert_eq!(is_cut, own.as_ref() == Some(&cuts), "{packet:?} {cuts:?}");
        yes += usize::from(is_cut);
    }
    assert!((5000..15000).contains(&yes), "{yes} of 20000 are the cut");
}

/// Where the reader finds the fields of a packet that has no sealed fields.
fn fields_read(packet: Packet<'_>) -> Option<Vec<Cut>> {
    let mut workspace = Workspace::new();
    let read = deserialize(packet, &mut workspace, &mut [], |_, _, _| Opening::NoKey).ok()?;
    let place = |field: Field<'_, Untrusted>| {
        cut(
            field.packet_offset().bytes_from_packet_start(),
            field.wire_length(),
        )
    };
    Some(read.untrusted().map(place).collect())
}
