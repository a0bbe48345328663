//! The journal, which ntp-proto does not have: the longest image, and beside it a copy of as many bytes.

use crate::timing::medians;
use lobzhinar::ffi::{self, NtpRawJournalFound, NtpRawJournalStart, NtpRawJournalStore};
use lobzhinar::{JOURNAL_LONGEST_IMAGE, JournalEntries, JournalKind};
use std::hint::black_box;

const BLANK: u8 = 0xff;
const READ: Appended = Appended {
    name: "reads",
    kind: JournalKind::Read,
    body: &[0, 1, 2, 3],
};
const HEADER: Appended = Appended {
    name: "headers",
    kind: JournalKind::Header,
    body: &[7; 48],
};

/// An entry that is appended again and again.
struct Appended {
    name: &'static str,
    kind: JournalKind,
    body: &'static [u8],
}

impl Appended {
    /// Length and kind, the body, the end byte.
    const fn bytes(&self) -> usize {
        self.body.len() + 5
    }

    /// Appends it by one call, and returns where it went.
    fn append(&self, image: &mut [u8]) -> Option<usize> {
        // SAFETY: pointers come with the lengths of their slices, and the reply is stored whole.
        let start: NtpRawJournalStart = unsafe {
            ffi::stored(|reply| {
                ffi::ntp_raw_journal_append(
                    reply,
                    image.as_mut_ptr(),
                    image.len(),
                    self.kind.number(),
                    self.body.as_ptr(),
                    self.body.len(),
                );
            })
        };
        (start.number == 0).then_some(start.entry_offset)
    }

    /// Appends it as often as there is room, and returns how often.
    fn fill(&self, image: &mut [u8]) -> u64 {
        image.fill(BLANK);
        let mut count = 0;
        while self.append(image).is_some() {
            count += 1;
        }
        count
    }

    /// Stores it at the start of an image, each store by calls of its own.
    fn store_one_by_one(&self, image: &mut [u8]) -> u64 {
        let kind = self.kind.number();
        each_store(image, |reply, index| {
            // SAFETY: the pointer comes with the length of its slice, and the reply is stored whole.
            unsafe {
                ffi::ntp_raw_journal_append_store(
                    reply,
                    0,
                    kind,
                    self.body.as_ptr(),
                    self.body.len(),
                    index,
                );
            }
        })
    }
}

/// Performs the stores of a plan, and returns how many there are.
fn each_store(image: &mut [u8], plan: impl Fn(*mut NtpRawJournalStore, usize)) -> u64 {
    for index in 0.. {
        // SAFETY: a plan stores its reply whole.
        let store = unsafe { ffi::stored(|reply| plan(reply, index)) };
        if store.number != 0 {
            return index as u64;
        }
        // SAFETY: the pointer comes with the length of its slice.
        unsafe {
            ffi::ntp_raw_journal_store(
                image.as_mut_ptr(),
                image.len(),
                store.offset,
                store.byte as u8,
            );
        }
    }
    unreachable!("a plan ends")
}

fn find(image: &[u8]) -> NtpRawJournalFound {
    // SAFETY: the pointer comes with the length of its slice, and the reply is stored whole.
    unsafe { ffi::stored(|reply| ffi::ntp_raw_journal_find(reply, image.as_ptr(), image.len())) }
}

fn recover(image: &mut [u8]) -> NtpRawJournalFound {
    // SAFETY: the pointer comes with the length of its slice, and the reply is stored whole.
    unsafe {
        ffi::stored(|reply| ffi::ntp_raw_journal_recover(reply, image.as_mut_ptr(), image.len()))
    }
}

fn recover_one_by_one(image: &mut [u8]) -> u64 {
    let found = find(image);
    each_store(image, |reply, index| {
        // SAFETY: the reply is stored whole.
        unsafe {
            ffi::ntp_raw_journal_recovery_store(reply, found.next_offset, found.torn_len, index);
        }
    })
}

/// Whether the image is filled anew before each call. A copy does it, whose time is taken off.
#[derive(Copy, Clone, PartialEq)]
enum Filled {
    Once,
    EachTime,
}

fn row(what: &str, bytes: usize, filled: Filled, mut side: impl FnMut() -> u64) {
    let from = vec![1u8; bytes];
    let mut to = vec![0; bytes];
    let [time, copy] = medians([&mut side, &mut || {
        to.copy_from_slice(black_box(&from));
        u64::from(black_box(&to)[0])
    }]);
    let own = if filled == Filled::EachTime {
        time - copy
    } else {
        time
    };
    println!(
        "| {what} | {bytes} | {own:.0} | {:.2} | {copy:.0} | {:.1} |",
        own / bytes as f64,
        own / copy
    );
}

pub fn print() {
    println!("\n## The journal, in an image of 32,768 bytes\n");
    println!("| | bytes | port | ns a byte | a copy of as many bytes | times the copy |");
    println!("|---|---|---|---|---|---|");
    for entry in [&READ, &HEADER] {
        print_full(entry);
    }
    print_torn();
    for entry in [&READ, &HEADER] {
        print_stores(entry);
    }
}

/// An image that is full of one kind of entry.
fn print_full(entry: &Appended) {
    let (name, bytes) = (entry.name, entry.bytes());
    let mut image = vec![BLANK; JOURNAL_LONGEST_IMAGE];
    let count = entry.fill(&mut image);
    let last = (count as usize - 1) * bytes;
    let whole = format!("full of {name}, {count} of them");
    row(
        &format!("found, {whole}"),
        image.len(),
        Filled::Once,
        || find(&image).entry_count as u64,
    );
    row(
        &format!("recovered, {whole}, nothing torn"),
        image.len(),
        Filled::Once,
        || recover(&mut image).entry_count as u64,
    );
    row(
        &format!("read one by one through the binding, {whole}"),
        image.len(),
        Filled::Once,
        || JournalEntries::of(&image).map_or(0, |entries| entries.count() as u64),
    );
    row(
        &format!("the last of the {name} appended, past all others"),
        bytes,
        Filled::Once,
        || {
            // Without the low byte of its length it does not stand.
            image[last] = BLANK;
            entry.append(&mut image).unwrap_or_default() as u64
        },
    );
    row(
        &format!("a blank image filled with {name}, append by append"),
        image.len(),
        Filled::Once,
        || entry.fill(&mut image),
    );
}

/// An image that is torn from its first byte on.
fn print_torn() {
    let torn = vec![0; JOURNAL_LONGEST_IMAGE];
    let mut image = torn.clone();
    row(
        "recovered, torn whole",
        torn.len(),
        Filled::EachTime,
        || {
            image.copy_from_slice(&torn);
            recover(&mut image).torn_len as u64
        },
    );
    row(
        "recovered, torn whole, each store by calls of its own",
        torn.len(),
        Filled::EachTime,
        || {
            image.copy_from_slice(&torn);
            recover_one_by_one(&mut image)
        },
    );
    let blank = vec![BLANK; JOURNAL_LONGEST_IMAGE];
    row("found, blank", blank.len(), Filled::Once, || {
        find(&blank).next_offset as u64
    });
}

/// One entry in a blank image.
fn print_stores(entry: &Appended) {
    let mut image = vec![BLANK; JOURNAL_LONGEST_IMAGE];
    row(
        &format!("the first of the {} appended", entry.name),
        entry.bytes(),
        Filled::Once,
        || {
            image[0] = BLANK;
            entry.append(&mut image).unwrap_or_default() as u64
        },
    );
    row(
        &format!(
            "the first of the {} stored, each store by calls of its own",
            entry.name
        ),
        entry.bytes(),
        Filled::Once,
        || entry.store_one_by_one(&mut image),
    );
}
