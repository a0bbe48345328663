//! Opening results: what the host says of each sealed field of a survey.

use crate::ffi::TABLE;
use crate::packet::Packet;
use crate::reading::Tables;
use crate::survey::{Sealed, Survey};
use core::error::Error;
use core::fmt;

/// What the host's cipher says of a sealed field.
#[derive(Copy, Clone, Debug, PartialEq, Eq, Hash)]
pub enum Opening {
    /// There is no key for it.
    NoKey,
    /// It did not open: the key is another one, or the packet was changed.
    Failed,
    /// It opened over its associated data.
    Opened {
        /// How many bytes of its room the plaintext takes.
        plaintext_len: usize,
    },
    /// It opened over its associated data, by the key of a server's cookie.
    OpenedByCookie {
        /// How many bytes of its room the plaintext takes.
        plaintext_len: usize,
    },
}

impl Opening {
    /// The verdict of rule 8.1, and the length of the plaintext.
    #[inline]
    const fn verdict(self) -> (u8, usize) {
        match self {
            Self::NoKey => (0, 0),
            Self::Failed => (1, 0),
            Self::Opened { plaintext_len } => (2, plaintext_len),
            Self::OpenedByCookie { plaintext_len } => (3, plaintext_len),
        }
    }

    /// Whether it opened.
    #[inline]
    pub(crate) const fn is_opened(self) -> bool {
        matches!(self, Self::Opened { .. } | Self::OpenedByCookie { .. })
    }
}

/// A result was given for a sealed field whose turn it is not, or that is of another packet. Nothing was added.
#[derive(Copy, Clone, Debug, PartialEq, Eq, Hash)]
pub struct NotItsTurn;

impl fmt::Display for NotItsTurn {
    fn fmt(&self, f: &mut fmt::Formatter<'_>) -> fmt::Result {
        f.write_str("it is not the turn of this sealed field")
    }
}

impl Error for NotItsTurn {}

/// Results as the library takes them. They stand in the tables, since moving them would take longer than reading.
#[derive(Clone)]
pub(crate) struct Given {
    pub(crate) count: usize,
    pub(crate) verdicts: [u8; TABLE],
    pub(crate) starts: [usize; TABLE],
    pub(crate) lens: [usize; TABLE],
}

impl Given {
    pub(crate) const NONE: Self = Self {
        count: 0,
        verdicts: [0; TABLE],
        starts: [0; TABLE],
        lens: [0; TABLE],
    };
}

/// One result for each sealed field of a survey, in the order of the packet. The plaintexts stand one after the other
/// in a buffer of the host's.
///
/// A sealed field without a result is refused with 9 when the packet is read, a plaintext that is longer than its room
/// with 10.
#[must_use = "results are there to read the packet with"]
pub struct Results<'packet, 'plain, 'tables> {
    pub(crate) packet: Packet<'packet>,
    pub(crate) plaintexts: &'plain mut [u8],
    used_len: usize,
    pub(crate) tables: &'tables mut Tables,
}

impl<'packet, 'plain, 'tables> Results<'packet, 'plain, 'tables> {
    /// No results yet for the packet of a survey. Its plaintexts go to `plaintexts`, and what is read to `tables`.
    #[inline]
    pub const fn new(
        survey: &Survey<'packet, '_>,
        plaintexts: &'plain mut [u8],
        tables: &'tables mut Tables,
    ) -> Self {
        tables.given.count = 0;
        Self {
            packet: survey.packet(),
            plaintexts,
            used_len: 0,
            tables,
        }
    }

    /// Where the plaintext of the next sealed field goes.
    #[must_use]
    #[inline]
    pub fn room(&mut self) -> &mut [u8] {
        &mut self.plaintexts[self.used_len..]
    }

    /// How many results there are.
    #[must_use]
    pub const fn count(&self) -> usize {
        self.tables.given.count
    }

    /// There is no key for this sealed field.
    ///
    /// # Errors
    ///
    /// It is not its turn.
    #[inline]
    pub fn no_key(&mut self, sealed: &Sealed<'_>) -> Result<(), NotItsTurn> {
        self.add(sealed, Opening::NoKey)
    }

    /// It did not open: the key is another one, or the packet was changed.
    ///
    /// # Errors
    ///
    /// It is not its turn.
    #[inline]
    pub fn failed(&mut self, sealed: &Sealed<'_>) -> Result<(), NotItsTurn> {
        self.add(sealed, Opening::Failed)
    }

    /// It opened over its associated data, and the plaintext is at the start of its [`room`](Self::room).
    ///
    /// # Errors
    ///
    /// It is not its turn.
    #[inline]
    pub fn opened(&mut self, sealed: &Sealed<'_>, plaintext_len: usize) -> Result<(), NotItsTurn> {
        self.add(sealed, Opening::Opened { plaintext_len })
    }

    /// The same, by the key of a server's cookie.
    ///
    /// # Errors
    ///
    /// It is not its turn.
    #[inline]
    pub fn opened_by_cookie(
        &mut self,
        sealed: &Sealed<'_>,
        plaintext_len: usize,
    ) -> Result<(), NotItsTurn> {
        self.add(sealed, Opening::OpenedByCookie { plaintext_len })
    }

    #[inline]
    pub(crate) fn add(&mut self, sealed: &Sealed<'_>, opening: Opening) -> Result<(), NotItsTurn> {
        let given = &mut self.tables.given;
        let place = given.count;
        // A survey has no more sealed fields than there are places here.
        if sealed.index() != place || !sealed.packet().is_same_as(&self.packet) {
            return Err(NotItsTurn);
        }
        let (verdict, plaintext_len) = opening.verdict();
        given.verdicts[place] = verdict;
        given.starts[place] = self.used_len;
        given.lens[place] = plaintext_len;
        given.count += 1;
        // Reading refuses a plaintext that is longer than its room.
        if plaintext_len <= self.plaintexts.len() - self.used_len {
            self.used_len += plaintext_len;
        }
        Ok(())
    }
}

impl fmt::Debug for Results<'_, '_, '_> {
    fn fmt(&self, f: &mut fmt::Formatter<'_>) -> fmt::Result {
        f.debug_struct("Results")
            .field("count", &self.count())
            .field("used_len", &self.used_len)
            .finish_non_exhaustive()
    }
}
