//! Reference ids: requests for a part of a server's filter, and responses.

use crate::ffi;
use crate::refusal::Refusal;

/// How many bytes of a filter are asked for.
#[derive(Copy, Clone, Debug, PartialEq, Eq, Hash, PartialOrd, Ord)]
pub struct PayloadLen(pub u16);

/// From which byte of a filter on.
#[derive(Copy, Clone, Debug, PartialEq, Eq, Hash, PartialOrd, Ord)]
pub struct FilterOffset(pub u16);

/// A request for a part of a server's filter.
#[derive(Copy, Clone, Debug, PartialEq, Eq, Hash)]
pub struct ReferenceIdRequest {
    payload_len: PayloadLen,
    filter_offset: FilterOffset,
}

impl ReferenceIdRequest {
    /// A request that may be sent: whole words of a filter of 512 bytes.
    ///
    /// # Errors
    ///
    /// [`Refusal::CannotBeMade`] for any other.
    pub fn new(payload_len: PayloadLen, filter_offset: FilterOffset) -> Result<Self, Refusal> {
        // SAFETY: the reply is stored whole.
        Self::of(unsafe {
            ffi::stored(|reply| ffi::ntp_raw_request_new(reply, payload_len.0, filter_offset.0))
        })
    }

    /// The request that the message of its field is.
    ///
    /// # Errors
    ///
    /// [`Refusal::IncorrectLength`] for fewer than 2 bytes, or more than 65,535.
    pub fn decode(message: &[u8]) -> Result<Self, Refusal> {
        // SAFETY: the pointer is of a slice, with its length, and the reply is stored whole.
        Self::of(unsafe {
            ffi::stored(|reply| ffi::ntp_raw_request_read(reply, message.as_ptr(), message.len()))
        })
    }

    #[expect(
        clippy::cast_possible_truncation,
        reason = "both have 16 bits on the wire"
    )]
    fn of(reply: ffi::NtpRawRequest) -> Result<Self, Refusal> {
        Refusal::check(reply.number)?;
        Ok(Self {
            payload_len: PayloadLen(reply.payload_len as u16),
            filter_offset: FilterOffset(reply.filter_offset as u16),
        })
    }

    /// How many bytes of the filter it asks for.
    #[must_use]
    pub const fn payload_len(self) -> PayloadLen {
        self.payload_len
    }

    /// From which byte of the filter on.
    #[must_use]
    pub const fn filter_offset(self) -> FilterOffset {
        self.filter_offset
    }

    /// Writes it as a field to `out`, after its first `offset` bytes. Returns how many bytes were written.
    ///
    /// # Errors
    ///
    /// It asks for no whole words, or there is no room.
    pub fn serialize(self, out: &mut [u8], offset: usize) -> Result<usize, Refusal> {
        // SAFETY: the pointer is of a slice, with its length.
        let reply = unsafe {
            ffi::ntp_raw_request_write(
                self.payload_len.0,
                self.filter_offset.0,
                out.as_mut_ptr(),
                out.len(),
                offset,
            )
        };
        Refusal::check(reply.number)?;
        Ok(reply.len)
    }

    /// The part of a filter that it asks for.
    ///
    /// # Errors
    ///
    /// [`Refusal::CannotBeMade`] if that part does not lie inside the filter.
    pub fn to_response(self, filter: &[u8]) -> Result<ReferenceIdResponse<'_>, Refusal> {
        // SAFETY: the pointer is of a slice, with its length.
        let reply = unsafe {
            ffi::ntp_raw_response_cut(
                self.payload_len.0,
                self.filter_offset.0,
                filter.as_ptr(),
                filter.len(),
            )
        };
        Refusal::check(reply.number)?;
        let start = usize::from(self.filter_offset.0);
        Ok(ReferenceIdResponse {
            bytes: &filter[start..][..reply.len],
        })
    }
}

/// A part of a server's filter.
#[derive(Copy, Clone, Debug, PartialEq, Eq, Hash)]
pub struct ReferenceIdResponse<'a> {
    bytes: &'a [u8],
}

impl<'a> ReferenceIdResponse<'a> {
    /// A response that may be sent: whole words, at most 512 bytes.
    ///
    /// # Errors
    ///
    /// [`Refusal::CannotBeMade`] for any other.
    pub fn new(bytes: &'a [u8]) -> Result<Self, Refusal> {
        // SAFETY: the pointer is of a slice, with its length.
        let reply = unsafe { ffi::ntp_raw_response_new(bytes.as_ptr(), bytes.len()) };
        Refusal::check(reply.number)?;
        Ok(Self { bytes })
    }

    /// The response that the message of its field is, whatever bytes that has.
    #[must_use]
    pub const fn decode(message: &'a [u8]) -> Self {
        Self { bytes: message }
    }

    /// Its bytes.
    #[must_use]
    pub const fn bytes(&self) -> &'a [u8] {
        self.bytes
    }

    /// Writes it as a field to `out`, after its first `offset` bytes. Returns how many bytes were written.
    ///
    /// # Errors
    ///
    /// It is too long for a field, or there is no room.
    pub fn serialize(&self, out: &mut [u8], offset: usize) -> Result<usize, Refusal> {
        // SAFETY: the pointers are of slices, with their lengths; the output is lent to nobody else.
        let reply = unsafe {
            ffi::ntp_raw_response_write(
                self.bytes.as_ptr(),
                self.bytes.len(),
                out.as_mut_ptr(),
                out.len(),
                offset,
            )
        };
        Refusal::check(reply.number)?;
        Ok(reply.len)
    }
}
