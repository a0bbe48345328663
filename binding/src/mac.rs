//! The MAC at a packet's end.

use crate::ffi;
use crate::refusal::Refusal;

/// A key id and the digest, together 20 or 24 bytes; or a key id alone, which is a crypto-NAK of 4 bytes.
///
/// In `NTPv4` it stands in the remaining bytes of what was read. A trailer of another length is no MAC; its bytes stay
/// where they are:
///
/// ```
/// use lobzhinar::{Mac, Opening, Packet, Refusal, Workspace, deserialize};
///
/// let mut packet = vec![0; 48];
/// packet[0] = 0x24;
/// packet.extend([1, 2, 3, 4, 5, 6, 7]);
/// let mut workspace = Workspace::new();
/// let read = deserialize(Packet::v4(&packet), &mut workspace, &mut [], |_, _, _| Opening::NoKey)?;
/// assert_eq!(Mac::deserialize(read.remaining_bytes()), Err(Refusal::IncorrectLength));
/// assert_eq!(read.remaining_bytes(), [1, 2, 3, 4, 5, 6, 7]);
/// # Ok::<(), Refusal>(())
/// ```
#[derive(Copy, Clone, Debug, PartialEq, Eq, Hash)]
pub struct Mac<'a> {
    /// Which key.
    pub keyid: u32,
    /// The digest: 0, 16 or 20 bytes.
    pub mac: &'a [u8],
}

impl<'a> Mac<'a> {
    /// Reads 4, 20 or 24 bytes.
    ///
    /// # Errors
    ///
    /// [`Refusal::IncorrectLength`] for any other length, no bytes included.
    pub fn deserialize(data: &'a [u8]) -> Result<Self, Refusal> {
        // SAFETY: the pointer is of a slice, with its length, and the reply is stored whole.
        let reply: ffi::NtpRawMac =
            unsafe { ffi::stored(|reply| ffi::ntp_raw_mac_read(reply, data.as_ptr(), data.len())) };
        Refusal::check(reply.number)?;
        #[expect(
            clippy::cast_possible_truncation,
            reason = "a key id has 32 bits on the wire"
        )]
        let keyid = reply.keyid as u32;
        Ok(Self {
            keyid,
            mac: &data[data.len() - reply.body_len..],
        })
    }

    /// Writes it to `out` after its first `offset` bytes. Returns how many bytes were written.
    ///
    /// # Errors
    ///
    /// [`Refusal::CannotBeMade`] if the digest has another length than 0, 16 or 20 bytes, then
    /// [`Refusal::NoRoom`]. Nothing is written then.
    pub fn serialize(&self, out: &mut [u8], offset: usize) -> Result<usize, Refusal> {
        // SAFETY: the pointers are of slices, with their lengths; the output is lent to nobody else.
        let reply = unsafe {
            ffi::ntp_raw_mac_write(
                self.keyid,
                self.mac.as_ptr(),
                self.mac.len(),
                out.as_mut_ptr(),
                out.len(),
                offset,
            )
        };
        Refusal::check(reply.number)?;
        Ok(reply.len)
    }
}
