//! What a journal is stored in.

use crate::ffi;
use core::convert::Infallible;

/// Flash that a [`Journal`](crate::Journal) is stored in: its bytes can be read, and one byte at a time is stored.
///
/// The journal decides which byte is stored next, so a host can't get the order wrong. A host owes this:
///
/// - `as_ref` shows the image as it stands now, and always all of it. Blank bytes are `0xFF`.
/// - `store` changes the byte at `offset` and no other, whatever stood there. It returns `Ok` only once the byte would
///   survive a loss of power.
/// - Nothing else writes to the image while a journal has the flash.
///
/// Flash that stores larger units needs a driver that makes single bytes of them.
///
/// ```
/// use lobzhinar::Flash;
///
/// /// Memory on a bus that may not answer.
/// struct Fram {
///     image: [u8; 4096],
///     bus_is_up: bool,
/// }
///
/// #[derive(Debug)]
/// struct BusDown;
///
/// impl AsRef<[u8]> for Fram {
///     fn as_ref(&self) -> &[u8] {
///         &self.image
///     }
/// }
///
/// impl Flash for Fram {
///     type Error = BusDown;
///
///     fn store(&mut self, offset: usize, byte: u8) -> Result<(), BusDown> {
///         if !self.bus_is_up {
///             return Err(BusDown);
///         }
///         self.image[offset] = byte;
///         Ok(())
///     }
/// }
/// ```
pub trait Flash: AsRef<[u8]> {
    /// Why a byte could not be stored.
    type Error;

    /// Stores one byte. A journal asks only for offsets inside the image.
    ///
    /// # Errors
    ///
    /// The byte was not stored, or nobody knows. The journal is to be recovered then.
    fn store(&mut self, offset: usize, byte: u8) -> Result<(), Self::Error>;
}

/// Bytes in memory: for tests, and for memory that keeps what is written as it is written.
///
/// Each store is a call of the library, so a compiler neither joins nor reorders them. A cache may: memory behind one
/// needs a [`Flash`] that writes it back. A store outside the slice changes nothing.
impl Flash for [u8] {
    type Error = Infallible;

    fn store(&mut self, offset: usize, byte: u8) -> Result<(), Infallible> {
        // SAFETY: the pointer is of a slice that is lent to nobody else, with its length.
        unsafe { ffi::ntp_raw_journal_store(self.as_mut_ptr(), self.len(), offset, byte) };
        Ok(())
    }
}

/// The same for an array, which a journal can own.
impl<const LEN: usize> Flash for [u8; LEN] {
    type Error = Infallible;

    fn store(&mut self, offset: usize, byte: u8) -> Result<(), Infallible> {
        self.as_mut_slice().store(offset, byte)
    }
}

/// Flash that a journal has for a while.
impl<F: Flash + ?Sized> Flash for &mut F {
    type Error = F::Error;

    fn store(&mut self, offset: usize, byte: u8) -> Result<(), F::Error> {
        (**self).store(offset, byte)
    }
}
