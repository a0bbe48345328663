//! The stores of an append and of a recovery, each asked for by its number: the library says which byte goes where.

use crate::ffi;
use crate::journal_entry::{JournalFound, JournalKind};
use crate::refusal::Refusal;

/// A byte that is to be stored.
pub(crate) struct Store {
    pub(crate) offset: usize,
    pub(crate) byte: u8,
}

impl Store {
    /// What a reply says: nothing past the end of a plan.
    fn of(reply: ffi::NtpRawJournalStore) -> Option<Self> {
        Refusal::check(reply.number).ok()?;
        #[expect(clippy::cast_possible_truncation, reason = "it is a byte")]
        let byte = reply.byte as u8;
        Some(Self {
            offset: reply.offset,
            byte,
        })
    }
}

/// Store number `index` of a recovery.
pub(crate) fn recovery_store(found: JournalFound, index: usize) -> Option<Store> {
    // SAFETY: the reply is stored whole.
    Store::of(unsafe {
        ffi::stored(|reply| {
            ffi::ntp_raw_journal_recovery_store(reply, found.next_offset, found.torn_len, index);
        })
    })
}

/// Where an entry would go, and by how many stores.
pub(crate) fn start_append(
    image: &[u8],
    kind: JournalKind,
    body: &[u8],
) -> ffi::NtpRawJournalStart {
    // SAFETY: the pointers are of slices, with their lengths, and the reply is stored whole.
    unsafe {
        ffi::stored(|reply| {
            ffi::ntp_raw_journal_start(
                reply,
                image.as_ptr(),
                image.len(),
                kind.number(),
                body.as_ptr(),
                body.len(),
            );
        })
    }
}

/// Store number `index` of an append.
pub(crate) fn append_store(
    entry_offset: usize,
    kind: JournalKind,
    body: &[u8],
    index: usize,
) -> Option<Store> {
    // SAFETY: the pointer is of a slice, with its length, and the reply is stored whole.
    Store::of(unsafe {
        ffi::stored(|reply| {
            ffi::ntp_raw_journal_append_store(
                reply,
                entry_offset,
                kind.number(),
                body.as_ptr(),
                body.len(),
                index,
            );
        })
    })
}

#[cfg(test)]
mod tests {
    use super::{append_store, recovery_store};
    use crate::ffi;
    use crate::{Journal, JournalError, JournalFound, JournalKind};
    use std::vec::Vec;

    const HEADER: [u8; 48] = [0xa5; 48];

    /// Images that appends, recoveries and cuts can leave, and others: a whole header, then the first so many stores of
    /// a second one.
    fn images() -> impl Iterator<Item = Vec<u8>> {
        (0..=53).flat_map(|cut| {
            [100, 106, 200].map(|len| {
                let mut image = std::vec![0xff; len];
                let whole =
                    (0..53).map(|index| append_store(0, JournalKind::Header, &HEADER, index));
                let torn =
                    (0..cut).map(|index| append_store(53, JournalKind::Header, &HEADER, index));
                for store in whole.chain(torn).flatten() {
                    if let Some(place) = image.get_mut(store.offset) {
                        *place = store.byte;
                    }
                }
                image
            })
        })
    }

    /// The library recovers and appends in one call each, if the image is memory. Store by store it is the same.
    #[test]
    fn stores_leave_what_the_calls_of_the_library_leave() {
        for image in images() {
            let (mut ours, mut theirs) = (image.clone(), image);
            // SAFETY: the pointer is of a vector, with its length, and the reply is stored whole.
            let found: ffi::NtpRawJournalFound = unsafe {
                ffi::stored(|reply| {
                    ffi::ntp_raw_journal_recover(reply, theirs.as_mut_ptr(), theirs.len());
                })
            };
            let mut journal = Journal::recover(&mut ours[..]).unwrap();
            assert_eq!(found.number, 0);
            assert_eq!(journal.entry_count(), found.entry_count);
            assert_eq!(journal.next_offset(), found.next_offset);
            assert_eq!(journal.torn_len(), found.torn_len);
            assert_eq!(*journal.flash(), theirs);

            // SAFETY: the pointers are of a vector and an array, with their lengths, and the reply is stored whole.
            let start: ffi::NtpRawJournalStart = unsafe {
                ffi::stored(|reply| {
                    ffi::ntp_raw_journal_append(
                        reply,
                        theirs.as_mut_ptr(),
                        theirs.len(),
                        JournalKind::Header.number(),
                        HEADER.as_ptr(),
                        HEADER.len(),
                    );
                })
            };
            match journal.append_header(&HEADER) {
                Ok(offset) => assert_eq!((0, offset), (start.number, start.entry_offset)),
                Err(JournalError::Refused(refusal)) => {
                    assert_eq!(usize::from(refusal.number()), start.number);
                }
                Err(error) => panic!("{error}"),
            }
            assert_eq!(ours, theirs);
        }
    }

    #[test]
    fn a_plan_has_an_end() {
        let stores = |body: &[u8], kind| {
            (0..100)
                .map_while(|index| append_store(0, kind, body, index))
                .count()
        };
        assert_eq!(stores(&[0; 4], JournalKind::Read), 9);
        assert_eq!(stores(&[0; 48], JournalKind::Header), 53);
        // A body of another size has no plan.
        assert_eq!(stores(&[0; 5], JournalKind::Read), 0);
        assert_eq!(stores(&[0; 47], JournalKind::Header), 0);
        let found = JournalFound {
            entry_count: 0,
            next_offset: 7,
            torn_len: 3,
        };
        let erased: Vec<_> = (0..)
            .map_while(|index| recovery_store(found, index))
            .map(|store| (store.offset, store.byte))
            .collect();
        assert_eq!(erased, [(9, 0xff), (8, 0xff), (7, 0xff)]);
        assert!(recovery_store(found, usize::MAX).is_none());
    }
}
