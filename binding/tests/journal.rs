//! The journal: stores in their order, cut after each of them.

use lobzhinar::{
    Context, Entry, ExtensionHeaderVersion, Flash, JOURNAL_LONGEST_IMAGE, Journal, JournalEntries,
    JournalError, JournalFound, JournalKind, Opening, Packet, ReadBody, Refusal, Workspace,
    deserialize,
};
use std::convert::Infallible;
use std::fmt;

/// Flash that loses power after so many stores, and keeps a record of them.
#[derive(Clone, Debug, PartialEq)]
struct Cut {
    image: Vec<u8>,
    stores_left: usize,
    stores: Vec<(usize, u8)>,
}

#[derive(Copy, Clone, Debug, PartialEq)]
struct PowerLost;

impl fmt::Display for PowerLost {
    fn fmt(&self, f: &mut fmt::Formatter<'_>) -> fmt::Result {
        f.write_str("power was lost")
    }
}

impl Cut {
    fn after(stores_left: usize, image: &[u8]) -> Self {
        Self {
            image: image.to_vec(),
            stores_left,
            stores: Vec::new(),
        }
    }

    fn never(image: &[u8]) -> Self {
        Self::after(usize::MAX, image)
    }
}

impl AsRef<[u8]> for Cut {
    fn as_ref(&self) -> &[u8] {
        &self.image
    }
}

impl Flash for Cut {
    type Error = PowerLost;

    fn store(&mut self, offset: usize, byte: u8) -> Result<(), PowerLost> {
        self.stores_left = self.stores_left.checked_sub(1).ok_or(PowerLost)?;
        self.stores.push((offset, byte));
        self.image[offset] = byte;
        Ok(())
    }
}

/// What a test appends.
#[derive(Copy, Clone, Debug)]
enum Body {
    Read(ReadBody),
    Header([u8; 48]),
}

impl Body {
    fn append_to<F: Flash>(
        &self,
        journal: &mut Journal<F>,
    ) -> Result<usize, JournalError<F::Error>> {
        match self {
            Self::Read(body) => journal.append_read(body),
            Self::Header(header) => journal.append_header(header),
        }
    }

    /// The bytes of the whole entry, by the text of request (v).
    fn entry(&self) -> Vec<u8> {
        let (kind, body) = match self {
            Self::Read(body) => (1, &body.bytes()[..]),
            Self::Header(header) => (2, &header[..]),
        };
        let len = u8::try_from(body.len() + 5).unwrap();
        [&[len, 0, kind, 0], body, &[0xa5]].concat()
    }
}

/// A verdict on a packet of `NTPv5` with so many plain fields, and a sealed one if `opening` says something of it.
fn verdict(plain: usize, opening: Option<Opening>) -> ReadBody {
    let mut packet = [0x20, 1, 0, 4].repeat(plain);
    if opening.is_some() {
        packet.extend([4, 4, 0, 8, 0, 0, 0, 0]);
    }
    read(&packet, opening.unwrap_or(Opening::NoKey))
}

/// The verdict on the fields of a packet. Two encrypted fields stand in the plaintext.
fn read(packet: &[u8], opening: Opening) -> ReadBody {
    let mut workspace = Workspace::new();
    let packet = Packet::with_header(ExtensionHeaderVersion::V5, 0, packet);
    let mut plaintexts = [0x20, 1, 0, 4].repeat(2);
    let open = |_, _: Context, _: &mut [u8]| opening;
    ReadBody::of(&deserialize(packet, &mut workspace, &mut plaintexts, open))
}

fn bodies() -> Vec<Body> {
    let read = Body::Read(verdict(3, None));
    // A body that looks like entries: a whole read, a torn one, and then another whole one.
    let mut entries = [0xa5; 48];
    entries[..9].copy_from_slice(&read.entry());
    entries[9..18].copy_from_slice(&[0xff, 0xff, 1, 0, 1, 2, 3, 4, 0xa5]);
    entries[39..].copy_from_slice(&read.entry());
    vec![
        read,
        Body::Read(verdict(2, Some(Opening::Failed))),
        Body::Header([0x24; 48]),
        Body::Header([0xff; 48]),
        Body::Header([0xa5; 48]),
        Body::Header([0; 48]),
        Body::Header(entries),
    ]
}

/// Images that were reached by appends alone. A header fits into the room that each has left: exactly, or with some
/// bytes to spare.
fn images() -> Vec<Vec<u8>> {
    let entries: Vec<u8> = bodies().iter().flat_map(Body::entry).collect();
    let mut images = Vec::new();
    for filled in [0, 9, 18, entries.len()] {
        for spare in [0, 20] {
            let mut image = vec![0xff; filled + 53 + spare];
            image[..filled].copy_from_slice(&entries[..filled]);
            images.push(image);
        }
    }
    images
}

/// What a journal's entries are: where, of which kind, and their bodies.
fn shown(image: &[u8]) -> Vec<(usize, JournalKind, Vec<u8>)> {
    let entries: Vec<_> = JournalEntries::of(image)
        .unwrap()
        .map(|entry| (entry.entry_offset(), entry.kind(), entry.body().to_vec()))
        .collect();
    assert_eq!(entries.len(), JournalFound::of(image).unwrap().entry_count);
    entries
}

#[test]
fn an_append_stores_the_length_last() {
    for image in images() {
        for body in bodies() {
            let start = JournalFound::of(&image).unwrap().next_offset;
            let mut journal = Journal::recover(Cut::never(&image)).unwrap();
            assert_eq!(body.append_to(&mut journal), Ok(start));
            let entry = body.entry();
            let mut expected: Vec<_> = (2..entry.len()).collect();
            expected.extend([1, 0]);
            let expected: Vec<_> = expected.iter().map(|k| (start + k, entry[*k])).collect();
            assert_eq!(journal.flash().stores, expected);

            let mut after = image.clone();
            after[start..start + entry.len()].copy_from_slice(&entry);
            assert_eq!(journal.flash().image, after);
            let count = JournalFound::of(&image).unwrap().entry_count + 1;
            assert_eq!(journal.entry_count(), count);
            assert_eq!(journal.next_offset(), start + entry.len());
            assert_eq!(journal.entries().count(), count);
            assert!(journal.is_recovered());
        }
    }
}

/// Cuts an append after each of its stores, then the recovery after each of its own.
#[test]
fn a_cut_loses_no_entry_and_shows_no_torn_one() {
    for image in images() {
        for body in bodies() {
            let before = shown(&image);
            let whole = body.entry().len();
            for cut in 0..=whole {
                let mut journal = Journal::recover(Cut::after(cut, &image)).unwrap();
                let appended = body.append_to(&mut journal);
                if cut < whole {
                    assert_eq!(appended, Err(JournalError::Store(PowerLost)));
                    assert_eq!(journal.flash().stores.len(), cut);
                    assert_eq!(journal.entry_count(), before.len());
                    assert_eq!(journal.entries().count(), before.len());
                } else {
                    assert_eq!(appended, Ok(JournalFound::of(&image).unwrap().next_offset));
                }
                let torn = journal.into_flash().image;
                cut_recoveries(&torn, if cut < whole { &image } else { &torn });
                let now = shown(&torn);
                assert_eq!(now[..before.len()], before);
                assert_eq!(now.len(), before.len() + usize::from(cut == whole));
            }
        }
    }
}

/// Recovers an image, whole and cut after each store. In the end it is `clean`, and the entries are its all the way.
fn cut_recoveries(image: &[u8], clean: &[u8]) {
    let found = JournalFound::of(image).unwrap();
    for cut in 0..=found.torn_len {
        let mut flash = Cut::after(cut, image);
        let recovered = Journal::recover(&mut flash).map(|journal| journal.torn_len());
        if cut < found.torn_len {
            let not_recovered = recovered.unwrap_err();
            assert_eq!(not_recovered.error, JournalError::Store(PowerLost));
            assert_eq!(not_recovered.flash.stores.len(), cut);
        } else {
            assert_eq!(recovered.unwrap(), found.torn_len);
        }
        let end = found.next_offset + found.torn_len;
        let expected: Vec<_> = (0..cut).map(|k| (end - 1 - k, 0xff)).collect();
        assert_eq!(flash.stores, expected);
        assert_eq!(shown(&flash.image), shown(clean));
        // The next recovery ends what this one began, and one more stores nothing.
        let journal = Journal::recover(Cut::never(&flash.image)).unwrap();
        assert_eq!(journal.flash().image, clean);
        let again = Journal::recover(Cut::never(&journal.into_flash().image)).unwrap();
        assert_eq!((again.torn_len(), again.flash().stores.len()), (0, 0));
        assert_eq!(again.flash().image, clean);
    }
}

#[test]
fn after_a_store_that_failed_nothing_is_appended_before_a_recovery() {
    for body in bodies() {
        for cut in 0..body.entry().len() {
            let mut journal = Journal::recover(Cut::after(cut, &[0xff; 200])).unwrap();
            assert!(body.append_to(&mut journal).is_err());
            let torn = journal.flash().clone();
            assert!(!journal.is_recovered());
            for next in bodies() {
                assert_eq!(
                    next.append_to(&mut journal),
                    Err(JournalError::NotRecovered)
                );
            }
            // A recovery that fails too changes nothing about that.
            if JournalFound::of(&torn.image).unwrap().torn_len > 0 {
                assert_eq!(journal.recover_again(), Err(JournalError::Store(PowerLost)));
                assert_eq!(
                    body.append_to(&mut journal),
                    Err(JournalError::NotRecovered)
                );
            }
            assert_eq!(*journal.flash(), torn);
        }
    }
}

/// A store that fails once, after it changed the byte or before.
struct Once {
    image: [u8; 128],
    fails_at: Option<usize>,
    changes: bool,
}

impl AsRef<[u8]> for Once {
    fn as_ref(&self) -> &[u8] {
        &self.image
    }
}

impl Flash for Once {
    type Error = PowerLost;

    fn store(&mut self, offset: usize, byte: u8) -> Result<(), PowerLost> {
        let fails = self.fails_at.take_if(|at| *at == offset).is_some();
        if !fails || self.changes {
            self.image[offset] = byte;
        }
        if fails { Err(PowerLost) } else { Ok(()) }
    }
}

#[test]
fn a_journal_recovers_where_it_is() {
    for (fails_at, changes) in (0..53).flat_map(|at| [(at, false), (at, true)]) {
        let flash = Once {
            image: [0xff; 128],
            fails_at: Some(fails_at),
            changes,
        };
        let mut journal = Journal::recover(flash).unwrap();
        let appended = journal.append_header(&[7; 48]);
        assert_eq!(appended, Err(JournalError::Store(PowerLost)));
        // The entry is there if its last store did change the byte, whatever the flash says.
        let is_whole = usize::from(fails_at == 0 && changes);
        assert_eq!(journal.entries().count(), is_whole);
        assert_eq!(journal.recover_again(), Ok(()));
        assert_eq!(journal.entry_count(), is_whole);
        assert_eq!(journal.append_header(&[8; 48]), Ok(53 * is_whole));
        assert_eq!(
            journal.torn_len() == 0,
            is_whole == 1 || (fails_at == 2 && !changes)
        );
        let last = journal.entries().last().unwrap();
        assert_eq!(last.entry(), Entry::Header(&[8; 48]));
    }
}

/// A store that panics leaves the journal as one that fails does.
#[test]
fn a_store_that_panics_is_one_that_failed() {
    struct Panics([u8; 64]);
    impl AsRef<[u8]> for Panics {
        fn as_ref(&self) -> &[u8] {
            &self.0
        }
    }
    impl Flash for Panics {
        type Error = Infallible;
        fn store(&mut self, offset: usize, byte: u8) -> Result<(), Infallible> {
            assert!(offset != 30, "a driver at fault");
            self.0[offset] = byte;
            Ok(())
        }
    }
    let mut journal = Journal::recover(Panics([0xff; 64])).unwrap();
    let append = std::panic::AssertUnwindSafe(|| journal.append_header(&[7; 48]));
    assert!(std::panic::catch_unwind(append).is_err());
    assert!(!journal.is_recovered());
    let verdict = verdict(0, None);
    assert_eq!(
        journal.append_read(&verdict),
        Err(JournalError::NotRecovered)
    );
}

#[test]
fn no_room_changes_nothing() {
    for len in 0..140 {
        for body in bodies() {
            let whole = body.entry().len();
            let mut image = vec![0xff; len];
            let mut journal = Journal::recover(&mut image[..]).unwrap();
            for number in 0..len / whole {
                assert_eq!(body.append_to(&mut journal), Ok(number * whole));
            }
            let full = journal.into_flash().to_vec();
            let mut journal = Journal::recover(Cut::never(&full)).unwrap();
            let no_room = Err(JournalError::Refused(Refusal::NoRoom));
            assert_eq!(body.append_to(&mut journal), no_room);
            assert_eq!(*journal.flash(), Cut::never(&full));
            // A refusal is no store that failed: what fits can still be appended.
            assert!(journal.is_recovered());
            if full.len() - journal.next_offset() >= 9 {
                let next = journal.next_offset();
                assert_eq!(journal.append_read(&verdict(1, None)), Ok(next));
            }
        }
    }
}

#[test]
fn the_longest_image_is_walked_once() {
    // 3,640 reads and 8 bytes that hold none; and 618 headers with 14 bytes, into which a read fits.
    for body in [Body::Read(verdict(1, None)), Body::Header([0xa5; 48])] {
        let entry = body.entry();
        let count = JOURNAL_LONGEST_IMAGE / entry.len();
        let mut image = vec![0xff; JOURNAL_LONGEST_IMAGE];
        image[..count * entry.len()].copy_from_slice(&entry.repeat(count));
        let mut journal = Journal::recover(&mut image[..]).unwrap();
        assert_eq!((journal.entry_count(), journal.torn_len()), (count, 0));
        let offsets: Vec<_> = journal
            .entries()
            .map(|entry| entry.entry_offset())
            .collect();
        let expected: Vec<_> = (0..count).map(|number| number * entry.len()).collect();
        assert_eq!(offsets, expected);
        let no_room = Err(JournalError::Refused(Refusal::NoRoom));
        assert_eq!(body.append_to(&mut journal), no_room);
    }
}

/// Fills the longest image by appends, to its last byte.
#[test]
fn the_longest_image_is_filled() {
    // 3,635 reads of 9 bytes leave exactly the 53 bytes of a header.
    let mut image = vec![0xff; JOURNAL_LONGEST_IMAGE];
    let mut journal = Journal::recover(&mut image[..]).unwrap();
    let body = verdict(1, None);
    for number in 0..3635 {
        assert_eq!(journal.append_read(&body), Ok(9 * number));
    }
    assert_eq!(journal.append_header(&[1; 48]), Ok(3635 * 9));
    assert_eq!(journal.next_offset(), JOURNAL_LONGEST_IMAGE);
    assert_eq!(shown(&image).len(), 3636);
    assert_eq!(JournalFound::of(&image).unwrap().torn_len, 0);
}

#[test]
fn a_longer_image_is_refused() {
    let mut image = vec![0xff; JOURNAL_LONGEST_IMAGE + 1];
    image[..9].copy_from_slice(&Body::Read(verdict(1, None)).entry());
    image[20] = 0; // a torn tail, which is not erased
    let flash = Cut::never(&image);
    let not_recovered = Journal::recover(flash.clone()).unwrap_err();
    assert_eq!(
        not_recovered.error,
        JournalError::Refused(Refusal::PacketTooLong)
    );
    assert_eq!(not_recovered.flash, flash);
    assert_eq!(
        not_recovered.to_string(),
        "the packet has more than 65,535 bytes, or the image of a journal more than 32,768"
    );
    assert_eq!(JournalFound::of(&image), Err(Refusal::PacketTooLong));
    assert_eq!(
        JournalEntries::of(&image).err(),
        Some(Refusal::PacketTooLong)
    );
}

/// Flash whose image grows, which a driver must not do, is refused and not written to.
#[test]
fn an_image_that_grew_is_refused() {
    let mut journal = Journal::recover(Growing(Cut::never(&[0xff; 64]).image)).unwrap();
    assert_eq!(journal.append_read(&verdict(1, None)), Ok(0));
    let too_long = JournalError::Refused(Refusal::PacketTooLong);
    assert_eq!(journal.append_read(&verdict(1, None)), Err(too_long));
    assert_eq!(journal.recover_again(), Err(too_long));
    let not_recovered = Err(JournalError::NotRecovered);
    assert_eq!(journal.append_read(&verdict(1, None)), not_recovered);
}

/// It has 32,769 bytes once an entry is whole.
struct Growing(Vec<u8>);

impl AsRef<[u8]> for Growing {
    fn as_ref(&self) -> &[u8] {
        &self.0
    }
}

impl Flash for Growing {
    type Error = Infallible;

    fn store(&mut self, offset: usize, byte: u8) -> Result<(), Infallible> {
        self.0[offset] = byte;
        if offset == 0 {
            self.0.resize(JOURNAL_LONGEST_IMAGE + 1, 0xff);
        }
        Ok(())
    }
}

#[test]
fn a_verdict_has_the_number_and_the_counts() {
    let opened = Opening::Opened { plaintext_len: 8 };
    let by_cookie = Opening::OpenedByCookie { plaintext_len: 4 };
    for (verdict, expected) in [
        (verdict(0, None), [0, 0, 0, 0]),
        (verdict(3, None), [0, 0, 3, 0]),
        (verdict(65, None), [0, 0, 65, 0]),
        (verdict(128, None), [0, 0, 128, 0]),
        (verdict(2, Some(opened)), [0, 2, 0, 2]),
        (verdict(2, Some(by_cookie)), [0, 2, 0, 1]),
        // Number 5 has its fields: the sealed one is among the untrusted.
        (verdict(2, Some(Opening::Failed)), [5, 0, 3, 0]),
        (verdict(0, Some(Opening::NoKey)), [5, 0, 1, 0]),
        // All others have none.
        (verdict(129, None), [8, 0, 0, 0]),
        (
            verdict(2, Some(Opening::Opened { plaintext_len: 9 })),
            [10, 0, 0, 0],
        ),
        (
            read(&[0x20, 1, 0, 4, 0x20, 1, 0, 3], Opening::NoKey),
            [1, 0, 0, 0],
        ),
        (read(&vec![0; 65_536], Opening::NoKey), [7, 0, 0, 0]),
    ] {
        assert_eq!(*verdict.bytes(), expected);
        let mut image = [0xff; 9];
        let mut journal = Journal::recover(&mut image).unwrap();
        assert_eq!(journal.append_read(&verdict), Ok(0));
        let entry = journal.entries().next().unwrap();
        let [
            number,
            authenticated_count,
            untrusted_count,
            encrypted_count,
        ] = expected;
        assert_eq!(
            entry.entry(),
            Entry::Read {
                number,
                authenticated_count,
                untrusted_count,
                encrypted_count
            }
        );
        assert_eq!(
            Refusal::from_number(number).map_or(0, Refusal::number),
            number
        );
    }
}

#[test]
fn a_body_is_a_part_of_the_image() {
    let mut image = [0xff; 128];
    let mut journal = Journal::recover(&mut image).unwrap();
    journal.append_read(&verdict(1, None)).unwrap();
    journal.append_header(&[7; 48]).unwrap();
    let entries: Vec<_> = JournalEntries::of(&image).unwrap().collect();
    assert!(std::ptr::eq(entries[0].body(), &raw const image[4..8]));
    assert!(std::ptr::eq(entries[1].body(), &raw const image[13..61]));
    let Entry::Header(header) = entries[1].entry() else {
        panic!("{entries:?}");
    };
    assert!(std::ptr::eq(header.as_slice(), entries[1].body()));
}

/// Only these bytes are an entry: each of them, changed, hides it and all after it.
#[test]
fn an_entry_counts_only_if_its_length_fits_its_kind_and_its_end_stands() {
    for body in bodies() {
        let entry = body.entry();
        let image = entry.repeat(2);
        for place in [0, 1, 2, 3, entry.len() - 1] {
            for byte in (0..=255).filter(|byte| *byte != entry[place]) {
                let mut changed = image.clone();
                changed[place] = byte;
                assert_eq!(shown(&changed), []);
                let mut changed = image.clone();
                changed[entry.len() + place] = byte;
                assert_eq!(shown(&changed), shown(&entry));
            }
        }
        for len in 0..entry.len() {
            assert_eq!(shown(&entry[..len]), []);
        }
    }
}

#[test]
fn a_recovery_of_what_is_not_torn_stores_nothing() {
    let mut torn = vec![0xff; 100];
    torn[3] = 0;
    let mut journal = Journal::recover(Cut::never(&torn)).unwrap();
    assert_eq!(journal.torn_len(), 4);
    journal.append_header(&[7; 48]).unwrap();
    let before = journal.flash().clone();
    assert_eq!(journal.recover_again(), Ok(()));
    assert_eq!(*journal.flash(), before);
    assert_eq!((journal.entry_count(), journal.next_offset()), (1, 53));
    assert_eq!(journal.torn_len(), 0);
}

#[test]
fn a_store_outside_a_slice_changes_nothing() {
    let mut image = [1, 2, 3];
    for offset in [3, 4, JOURNAL_LONGEST_IMAGE, usize::MAX] {
        assert_eq!(image.store(offset, 9), Ok(()));
        assert_eq!(image[..].store(offset, 9), Ok(()));
        assert_eq!(image, [1, 2, 3]);
    }
    assert_eq!(image.store(2, 9), Ok(()));
    assert_eq!(image[..].store(0, 8), Ok(()));
    assert_eq!(image, [8, 2, 9]);
}

#[test]
fn errors_say_what_to_do() {
    let text = |error: JournalError<PowerLost>| error.to_string();
    assert_eq!(
        text(JournalError::Refused(Refusal::NoRoom)),
        "there is no room"
    );
    assert_eq!(
        text(JournalError::Store(PowerLost)),
        "the flash did not store a byte: power was lost"
    );
    assert_eq!(
        text(JournalError::NotRecovered),
        "the journal is to be recovered first"
    );
}

#[test]
fn refusals_have_their_numbers() {
    assert_eq!(Refusal::from_number(0), None);
    for number in 1..=18 {
        assert_eq!(Refusal::from_number(number).unwrap().number(), number);
    }
    for number in 19..=255 {
        assert_eq!(Refusal::from_number(number), None);
    }
}
