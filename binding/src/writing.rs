//! Writing the extension fields of a packet in two stages, and in one call.

use crate::ffi;
use crate::fields_to_write::{FieldsToWrite, Slices};
use crate::refusal::Refusal;
use crate::version::{ExtensionHeaderVersion, HEADER_SIZE};
use core::fmt;

/// Where a packet is written: its fields go after the header. The host writes the header first, since a seal covers it.
///
/// An output counts as no longer than 65,535 bytes: nothing is written past that.
pub struct Output<'out> {
    packet: &'out mut [u8],
    header_size: usize,
    version: ExtensionHeaderVersion,
}

impl<'out> Output<'out> {
    /// For a packet of `NTPv4`, after its header of 48 bytes.
    #[must_use]
    pub const fn v4(packet: &'out mut [u8]) -> Self {
        Self::with_header(ExtensionHeaderVersion::V4, HEADER_SIZE, packet)
    }

    /// For a packet of `NTPv5`, after its header of 48 bytes.
    #[must_use]
    pub const fn v5(packet: &'out mut [u8]) -> Self {
        Self::with_header(ExtensionHeaderVersion::V5, HEADER_SIZE, packet)
    }

    /// For a packet whose fields start after `header_size` bytes. A header that ends past the output is refused with 16
    /// when fields are written.
    #[must_use]
    pub const fn with_header(
        version: ExtensionHeaderVersion,
        header_size: usize,
        packet: &'out mut [u8],
    ) -> Self {
        Self {
            packet,
            header_size,
            version,
        }
    }
}

impl fmt::Debug for Output<'_> {
    fn fmt(&self, f: &mut fmt::Formatter<'_>) -> fmt::Result {
        f.debug_struct("Output")
            .field("version", &self.version)
            .field("header_size", &self.header_size)
            .field("room_len", &self.packet.len())
            .finish_non_exhaustive()
    }
}

/// The nonce that the host's cipher used.
#[derive(Copy, Clone, Debug, PartialEq, Eq, Hash)]
pub struct Nonce<'a>(pub &'a [u8]);

/// The ciphertext that the host's cipher made.
#[derive(Copy, Clone, Debug, PartialEq, Eq, Hash)]
pub struct Ciphertext<'a>(pub &'a [u8]);

/// What stage one left to be done.
///
/// It keeps the output, so that nothing else writes there before stage two.
#[must_use = "the packet is not written before stage two"]
pub struct StageOne<'out, 'fields> {
    output: Output<'out>,
    associated_data_len: usize,
    plaintext: &'fields [u8],
    owes_seal: bool,
    untrusted: Slices<'fields>,
    data: &'fields [u8],
}

/// Writes the authenticated fields to the output, and the encrypted ones to `plaintext`, where the host seals them.
///
/// # Errors
///
/// A field can't be written, or there is no room for it. Nothing was written then.
pub fn stage_one<'out, 'fields, const N: usize>(
    fields: &'fields FieldsToWrite<'_, N>,
    output: Output<'out>,
    plaintext: &'fields mut [u8],
) -> Result<StageOne<'out, 'fields>, Refusal> {
    written(fields, output, plaintext, true)
}

/// For a host without a cipher.
///
/// # Errors
///
/// [`Refusal::NoCipher`] if a field is to be authenticated or encrypted, [`Refusal::NoRoom`] if the header ends past
/// the output.
pub fn stage_one_without_cipher<'out, 'fields, const N: usize>(
    fields: &'fields FieldsToWrite<'_, N>,
    output: Output<'out>,
) -> Result<StageOne<'out, 'fields>, Refusal> {
    written(fields, output, &mut [], false)
}

fn written<'out, 'fields, const N: usize>(
    fields: &'fields FieldsToWrite<'_, N>,
    output: Output<'out>,
    plaintext: &'fields mut [u8],
    has_cipher: bool,
) -> Result<StageOne<'out, 'fields>, Refusal> {
    let sealed = fields.sealed.slices();
    let data = fields.bytes();
    // SAFETY: every pointer is of a slice, with its length; the two that are written are lent to nobody else. The reply
    // is stored whole.
    let reply: ffi::NtpRawStageOne = unsafe {
        ffi::stored(|reply| {
            ffi::ntp_raw_stage_one(
                reply,
                output.packet.as_mut_ptr(),
                output.packet.len(),
                output.header_size,
                plaintext.as_mut_ptr(),
                plaintext.len(),
                sealed.kinds.as_ptr(),
                sealed.kinds.len(),
                sealed.numbers.as_ptr(),
                sealed.numbers.len(),
                sealed.starts.as_ptr(),
                sealed.starts.len(),
                sealed.lens.as_ptr(),
                sealed.lens.len(),
                data.as_ptr(),
                data.len(),
                output.version.number(),
                u8::from(has_cipher),
                fields.authenticated_count,
                fields.encrypted_count(),
            );
        })
    };
    Refusal::check(reply.number)?;
    Ok(StageOne {
        output,
        associated_data_len: reply.associated_data_len,
        plaintext: &plaintext[..reply.plaintext_len],
        owes_seal: reply.owes_seal != 0,
        untrusted: fields.untrusted.slices(),
        data,
    })
}

impl<'fields> StageOne<'_, 'fields> {
    /// Whether the host has to seal [`plaintext`](Self::plaintext), which may be empty, over
    /// [`associated_data`](Self::associated_data).
    #[must_use]
    pub const fn owes_seal(&self) -> bool {
        self.owes_seal
    }

    /// The encrypted fields, to be sealed.
    #[must_use]
    pub const fn plaintext(&self) -> &'fields [u8] {
        self.plaintext
    }

    /// The packet so far, header and authenticated fields: what the plaintext is to be sealed over.
    #[must_use]
    pub fn associated_data(&self) -> &[u8] {
        &self.output.packet[..self.associated_data_len]
    }

    /// Writes the sealed field, if one is owed, and the untrusted fields after it. Returns the length of the packet,
    /// which starts with the output's first byte.
    ///
    /// Nonce and ciphertext are not read if no seal is owed.
    ///
    /// # Errors
    ///
    /// A field can't be written, or there is no room for it. What stage one wrote stays.
    pub fn stage_two(self, nonce: Nonce<'_>, ciphertext: Ciphertext<'_>) -> Result<usize, Refusal> {
        let (out, at) = (self.output.packet, self.associated_data_len);
        // SAFETY: every pointer is of a slice, with its length; the output is lent to nobody else.
        let reply = unsafe {
            ffi::ntp_raw_stage_two(
                out.as_mut_ptr(),
                out.len(),
                at,
                usize::from(self.owes_seal),
                nonce.0.as_ptr(),
                nonce.0.len(),
                ciphertext.0.as_ptr(),
                ciphertext.0.len(),
                self.untrusted.kinds.as_ptr(),
                self.untrusted.kinds.len(),
                self.untrusted.numbers.as_ptr(),
                self.untrusted.numbers.len(),
                self.untrusted.starts.as_ptr(),
                self.untrusted.starts.len(),
                self.untrusted.lens.as_ptr(),
                self.untrusted.lens.len(),
                self.data.as_ptr(),
                self.data.len(),
                self.output.version.number(),
                self.untrusted.kinds.len(),
            )
        };
        Refusal::check(reply.number)?;
        Ok(at + reply.len)
    }

    /// The same where no seal is owed.
    ///
    /// # Errors
    ///
    /// [`Refusal::NoCipher`] if a seal is owed; otherwise as [`stage_two`](Self::stage_two).
    pub fn stage_two_without_seal(self) -> Result<usize, Refusal> {
        if self.owes_seal {
            return Err(Refusal::NoCipher);
        }
        self.stage_two(Nonce(&[]), Ciphertext(&[]))
    }
}

impl fmt::Debug for StageOne<'_, '_> {
    fn fmt(&self, f: &mut fmt::Formatter<'_>) -> fmt::Result {
        f.debug_struct("StageOne")
            .field("output", &self.output)
            .field("associated_data_len", &self.associated_data_len)
            .field("plaintext_len", &self.plaintext.len())
            .field("owes_seal", &self.owes_seal)
            .finish_non_exhaustive()
    }
}

/// Room for what stands between the two stages.
#[derive(Debug)]
pub struct Between<'a> {
    /// For the encrypted fields.
    pub plaintext: &'a mut [u8],
    /// For the cipher's nonce.
    pub nonce: &'a mut [u8],
    /// For the cipher's ciphertext.
    pub ciphertext: &'a mut [u8],
}

/// What a host's cipher has to do. Its parts have names, so that none is taken for another.
#[derive(Debug)]
pub struct ToSeal<'a> {
    /// What the plaintext is sealed over.
    pub associated_data: &'a [u8],
    /// What is sealed. It may be empty.
    pub plaintext: &'a [u8],
    /// Where the nonce goes.
    pub nonce: &'a mut [u8],
    /// Where the ciphertext goes.
    pub ciphertext: &'a mut [u8],
}

/// What a host's cipher has done (ntp-proto's `EncryptResult`).
#[derive(Copy, Clone, Debug, PartialEq, Eq, Hash)]
pub struct EncryptResult {
    /// How many bytes the nonce has.
    pub nonce_length: usize,
    /// How many bytes the ciphertext has.
    pub ciphertext_length: usize,
}

/// Writes all fields of a packet, and seals by a closure: ntp-proto's `ExtensionFieldData::serialize`. Returns the
/// length of the packet, which starts with the output's first byte.
///
/// The closure is called if there is anything to authenticate or to encrypt. It returns `None` if it could not seal.
///
/// # Errors
///
/// A field can't be written, or there is no room for it. [`Refusal::NoCipher`] if the closure could not seal: the
/// authenticated fields are then in the output, and there is no packet. [`Refusal::NoRoom`] if it says that it wrote more
/// than there was room for.
pub fn serialize<const N: usize>(
    fields: &FieldsToWrite<'_, N>,
    output: Output<'_>,
    between: Between<'_>,
    seal: impl FnOnce(ToSeal<'_>) -> Option<EncryptResult>,
) -> Result<usize, Refusal> {
    let Between {
        plaintext,
        nonce,
        ciphertext,
    } = between;
    let stage = stage_one(fields, output, plaintext)?;
    if !stage.owes_seal() {
        return stage.stage_two_without_seal();
    }
    let sealed = seal(ToSeal {
        associated_data: stage.associated_data(),
        plaintext: stage.plaintext(),
        nonce,
        ciphertext,
    });
    let sealed = sealed.ok_or(Refusal::NoCipher)?;
    let nonce = nonce.get(..sealed.nonce_length).ok_or(Refusal::NoRoom)?;
    let ciphertext = ciphertext
        .get(..sealed.ciphertext_length)
        .ok_or(Refusal::NoRoom)?;
    stage.stage_two(Nonce(nonce), Ciphertext(ciphertext))
}
