//! A journal in flash, which survives a loss of power.

use crate::flash::Flash;
use crate::journal_entry::{JournalEntries, JournalFound, JournalKind, ReadBody};
use crate::journal_store::{Store, append_store, recovery_store, start_append};
use crate::refusal::Refusal;
use crate::version::HEADER_SIZE;
use core::error::Error;
use core::fmt;

/// A journal in [`Flash`]: verdicts and headers, one after the other.
///
/// [`recover`](Self::recover) is the only way to make one, so nothing is appended behind a torn tail. Power may be lost
/// after any store of an append or of a recovery: the next recovery finds every entry that was complete, and no part of
/// another one.
///
/// ```
/// use lobzhinar::{Entry, Journal, JournalError, Opening, Packet, ReadBody, Workspace, deserialize};
///
/// let mut flash = [0xff; 4096]; // blank
/// let mut journal = Journal::recover(&mut flash)?;
///
/// let packet = [7; 48];
/// let mut workspace = Workspace::new();
/// let read = deserialize(Packet::v4(&packet), &mut workspace, &mut [], |_, _, _| Opening::NoKey);
/// journal.append_header(&packet)?;
/// journal.append_read(&ReadBody::of(&read))?;
///
/// // After the next start.
/// let journal = Journal::recover(&mut flash)?;
/// assert_eq!((journal.entry_count(), journal.torn_len()), (2, 0));
/// let mut entries = journal.entries().map(|entry| entry.entry());
/// assert_eq!(entries.next(), Some(Entry::Header(&packet)));
/// assert!(matches!(entries.next(), Some(Entry::Read { number: 0, .. })));
/// # Ok::<(), JournalError<core::convert::Infallible>>(())
/// ```
///
/// # When a store fails
///
/// Nobody knows then how much of the entry stands. The journal still shows its entries, but it appends nothing, and
/// returns [`JournalError::NotRecovered`], until [`recover_again`](Self::recover_again) has run to its end:
///
/// ```
/// # use lobzhinar::Flash;
/// use lobzhinar::{Journal, JournalError};
///
/// # struct Fram { image: [u8; 4096], fails_at: usize }
/// # #[derive(Debug, PartialEq)]
/// # struct BusDown;
/// # impl AsRef<[u8]> for Fram {
/// #     fn as_ref(&self) -> &[u8] { &self.image }
/// # }
/// # impl Flash for Fram {
/// #     type Error = BusDown;
/// #     fn store(&mut self, offset: usize, byte: u8) -> Result<(), BusDown> {
/// #         if offset == self.fails_at { self.fails_at = 4096; return Err(BusDown); }
/// #         self.image[offset] = byte;
/// #         Ok(())
/// #     }
/// # }
/// # let fram = Fram { image: [0xff; 4096], fails_at: 20 };
/// # let header = [7; 48];
/// let mut journal = Journal::recover(fram)?;
/// assert_eq!(journal.append_header(&header), Err(JournalError::Store(BusDown)));
/// assert_eq!(journal.append_header(&header), Err(JournalError::NotRecovered));
///
/// journal.recover_again()?;
/// assert_eq!(journal.torn_len(), 20); // bytes 2 to 19 were stored
/// assert_eq!(journal.append_header(&header), Ok(0));
/// # Ok::<(), JournalError<BusDown>>(())
/// ```
///
/// # What is promised, and for what
///
/// The promise is for an image that was blank once and then changed by appends and recoveries alone, each of them whole
/// or cut. Bytes that something else wrote may look like an entry.
#[must_use = "a journal is there to be appended to or read"]
pub struct Journal<F> {
    flash: F,
    found: JournalFound,
    /// False while stores are performed, and so after one that failed.
    is_recovered: bool,
}

impl<F: Flash> Journal<F> {
    /// Finds the entries of an image, and erases the torn tail that a loss of power left, from its last byte back.
    ///
    /// Give it `&mut flash` to lend the flash, or the flash itself for [`into_flash`](Self::into_flash) to return.
    ///
    /// # Errors
    ///
    /// The image has more than 32,768 bytes ([`Refusal::PacketTooLong`], and nothing was stored), or a store failed. The
    /// flash is returned with the error.
    pub fn recover(flash: F) -> Result<Self, NotRecovered<F>> {
        let mut journal = Self {
            flash,
            found: JournalFound::NOTHING,
            is_recovered: false,
        };
        match journal.recover_again() {
            Ok(()) => Ok(journal),
            Err(error) => Err(NotRecovered {
                flash: journal.flash,
                error,
            }),
        }
    }

    /// Recovers the journal where it is, after a store that failed. Where nothing is torn, nothing is stored.
    ///
    /// # Errors
    ///
    /// As those of [`recover`](Self::recover). The journal is not recovered then, and this can be called again.
    pub fn recover_again(&mut self) -> Result<(), JournalError<F::Error>> {
        // An image that can't be looked at is not recovered either.
        self.is_recovered = false;
        let found = JournalFound::of(self.flash.as_ref()).map_err(JournalError::Refused)?;
        self.perform(|index| recovery_store(found, index))?;
        self.found = found;
        Ok(())
    }

    /// Appends the verdict on a packet. Returns the offset of the entry.
    ///
    /// # Errors
    ///
    /// [`Refusal::NoRoom`] if the image is full, and nothing was stored; a store failed; or one failed before, and the
    /// journal was not recovered.
    pub fn append_read(&mut self, body: &ReadBody) -> Result<usize, JournalError<F::Error>> {
        self.append(JournalKind::Read, body.bytes())
    }

    /// Appends the header of a packet, as it came. Returns the offset of the entry.
    ///
    /// # Errors
    ///
    /// As those of [`append_read`](Self::append_read).
    pub fn append_header(
        &mut self,
        header: &[u8; HEADER_SIZE],
    ) -> Result<usize, JournalError<F::Error>> {
        self.append(JournalKind::Header, header)
    }

    fn append(&mut self, kind: JournalKind, body: &[u8]) -> Result<usize, JournalError<F::Error>> {
        if !self.is_recovered {
            return Err(JournalError::NotRecovered);
        }
        let start = start_append(self.flash.as_ref(), kind, body);
        Refusal::check(start.number).map_err(JournalError::Refused)?;
        self.perform(|index| append_store(start.entry_offset, kind, body, index))?;
        self.found.entry_count += 1;
        self.found.next_offset = start.entry_offset + start.store_count;
        Ok(start.entry_offset)
    }

    /// Performs the stores of a plan, from number 0 on until there are no more. The journal is recovered if it gets to
    /// the end, and not if a store fails or panics.
    fn perform(
        &mut self,
        plan: impl Fn(usize) -> Option<Store>,
    ) -> Result<(), JournalError<F::Error>> {
        self.is_recovered = false;
        for Store { offset, byte } in (0..).map_while(plan) {
            self.flash
                .store(offset, byte)
                .map_err(JournalError::Store)?;
        }
        self.is_recovered = true;
        Ok(())
    }

    /// The entries, in the order in which they were appended. After a store that failed, the entry that was being
    /// appended is among them only if it stands whole.
    pub fn entries(&self) -> JournalEntries<'_> {
        JournalEntries::in_journal(self.flash.as_ref())
    }
}

impl<F> Journal<F> {
    /// How many entries it has, as the last append or recovery left it that ran to its end.
    #[must_use]
    pub const fn entry_count(&self) -> usize {
        self.found.entry_count
    }

    /// Where the next append starts, as the last append or recovery left it that ran to its end.
    #[must_use]
    pub const fn next_offset(&self) -> usize {
        self.found.next_offset
    }

    /// How many bytes of a torn tail the last recovery erased that ran to its end.
    #[must_use]
    pub const fn torn_len(&self) -> usize {
        self.found.torn_len
    }

    /// Whether it can be appended to: no store failed since the last recovery.
    #[must_use]
    pub const fn is_recovered(&self) -> bool {
        self.is_recovered
    }

    /// The flash, to look at.
    pub const fn flash(&self) -> &F {
        &self.flash
    }

    /// Ends the journal, and returns the flash.
    pub fn into_flash(self) -> F {
        self.flash
    }
}

impl<F> fmt::Debug for Journal<F> {
    fn fmt(&self, f: &mut fmt::Formatter<'_>) -> fmt::Result {
        f.debug_struct("Journal")
            .field("entry_count", &self.found.entry_count)
            .field("next_offset", &self.found.next_offset)
            .field("torn_len", &self.found.torn_len)
            .field("is_recovered", &self.is_recovered)
            .finish_non_exhaustive()
    }
}

/// Why a journal was not appended to or recovered.
#[derive(Copy, Clone, Debug, PartialEq, Eq, Hash)]
pub enum JournalError<E> {
    /// The library refuses it, and nothing was stored: number 7 for an image of more than 32,768 bytes, 16 for one that
    /// is full.
    Refused(Refusal),
    /// The flash did not store a byte, and says why. The journal is to be recovered before the next append.
    Store(E),
    /// A store failed before, and the journal was not recovered since. Nothing was stored.
    NotRecovered,
}

impl<E: fmt::Display> fmt::Display for JournalError<E> {
    fn fmt(&self, f: &mut fmt::Formatter<'_>) -> fmt::Result {
        match self {
            Self::Refused(refusal) => refusal.fmt(f),
            Self::Store(error) => write!(f, "the flash did not store a byte: {error}"),
            Self::NotRecovered => f.write_str("the journal is to be recovered first"),
        }
    }
}

impl<E: fmt::Debug + fmt::Display> Error for JournalError<E> {}

/// A recovery that did not run to its end, with the flash.
pub struct NotRecovered<F: Flash> {
    /// The flash, to try again.
    pub flash: F,
    /// Why.
    pub error: JournalError<F::Error>,
}

impl<F: Flash<Error: fmt::Debug>> fmt::Debug for NotRecovered<F> {
    fn fmt(&self, f: &mut fmt::Formatter<'_>) -> fmt::Result {
        f.debug_struct("NotRecovered")
            .field("error", &self.error)
            .finish_non_exhaustive()
    }
}

impl<F: Flash<Error: fmt::Display>> fmt::Display for NotRecovered<F> {
    fn fmt(&self, f: &mut fmt::Formatter<'_>) -> fmt::Result {
        self.error.fmt(f)
    }
}

impl<F: Flash<Error: fmt::Debug + fmt::Display>> Error for NotRecovered<F> {}

/// So that a function without the flash in its error can end by `?`.
impl<F: Flash> From<NotRecovered<F>> for JournalError<F::Error> {
    fn from(not_recovered: NotRecovered<F>) -> Self {
        not_recovered.error
    }
}
