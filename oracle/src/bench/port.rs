//! The port's side: the functions of the library `pump`, and the binding where that adds something.

use crate::packet::extension_fields::ExtensionHeaderVersion as Version;
use crate::packets::{FieldToWrite, HEADER, Packet, ToWrite};
use lobzhinar::ffi::{
    self, InnerTable, NtpHeaderRead, NtpHeaderV3V4Read, NtpRawLength, NtpRawRead, NtpRawStageOne,
    NtpRawSurvey, OuterTable, SealTable,
};
use lobzhinar::{NtpHeaderV3V4, NtpHeaderV5};
use std::hint::black_box;

/// `ntp_raw_read_128` of this library, or of an earlier one.
type RawRead = unsafe extern "C" fn(
    *mut NtpRawRead,
    *const u8,
    usize,
    usize,
    u8,
    *const u8,
    usize,
    *const usize,
    usize,
    *const usize,
    usize,
    *const u8,
    usize,
    *mut OuterTable,
    usize,
    *mut InnerTable,
    usize,
);

/// A packet, what is lent beside it, and the counts of the last call.
pub struct Reader<'a> {
    function: RawRead,
    packet: &'a Packet,
    version: u8,
    verdicts: Vec<u8>,
    starts: Vec<usize>,
    lens: Vec<usize>,
    plain: Vec<u8>,
    seals: SealTable,
    outer: OuterTable,
    used_outer: usize,
    inner: InnerTable,
    used_inner: usize,
}

impl<'a> Reader<'a> {
    pub fn new(packet: &'a Packet) -> Self {
        let plain = packet.plain.clone();
        let opened = usize::from(plain.is_some());
        let plain = plain.unwrap_or_default();
        Self {
            function: ffi::ntp_raw_read_128,
            packet,
            version: number_of(packet.version),
            verdicts: vec![2; opened],
            starts: vec![0; opened],
            lens: vec![plain.len(); opened],
            plain,
            seals: SealTable::BLANK,
            outer: OuterTable::BLANK,
            used_outer: 0,
            inner: InnerTable::BLANK,
            used_inner: 0,
        }
    }

    /// By the earlier library that tools/bench-scan links in.
    #[cfg(feature = "earlier")]
    pub fn of_earlier(packet: &'a Packet) -> Self {
        // Declared as bytes: only the address is needed, and `RawRead` has the arguments.
        #[link(name = "earlier", kind = "static")]
        unsafe extern "C" {
            static earlier_ntp_raw_read_128: [u8; 0];
        }
        let address = &raw const earlier_ntp_raw_read_128;
        // SAFETY: it is the address of the same function of a library with the same interface number.
        let function = unsafe { std::mem::transmute::<*const [u8; 0], RawRead>(address) };
        Self {
            function,
            ..Self::new(packet)
        }
    }

    /// With a version that is none, which the boundary refuses.
    pub fn of_no_version(packet: &'a Packet) -> Self {
        Self {
            version: 0,
            ..Self::new(packet)
        }
    }

    /// How much of the tables the last call left in use.
    pub fn bytes_in_use(&self) -> usize {
        (self.used_outer + self.used_inner) * size_of::<u64>()
    }

    /// Reads into tables that are cleared whole.
    pub fn read(&mut self) -> u64 {
        self.used_outer = self.outer.entries.len();
        self.used_inner = self.inner.entries.len();
        self.read_again()
    }

    /// Reads into tables that are blank past the last call's counts.
    pub fn read_again(&mut self) -> u64 {
        let reply = self.raw_read();
        self.look(&reply)
    }

    fn raw_read(&mut self) -> NtpRawRead {
        // SAFETY: every pointer comes with the length of what it points to, and the reply is stored whole.
        let reply: NtpRawRead = unsafe {
            ffi::stored(|reply| {
                (self.function)(
                    reply,
                    self.packet.bytes.as_ptr(),
                    self.packet.bytes.len(),
                    HEADER,
                    self.version,
                    self.verdicts.as_ptr(),
                    self.verdicts.len(),
                    self.starts.as_ptr(),
                    self.starts.len(),
                    self.lens.as_ptr(),
                    self.lens.len(),
                    self.plain.as_ptr(),
                    self.plain.len(),
                    &mut self.outer,
                    self.used_outer,
                    &mut self.inner,
                    self.used_inner,
                );
            })
        };
        self.used_outer = reply.authenticated_count + reply.untrusted_count;
        self.used_inner = reply.encrypted_count;
        reply
    }

    fn raw_survey(&mut self) -> NtpRawSurvey {
        // SAFETY: as in `raw_read`.
        unsafe {
            ffi::stored(|reply| {
                ffi::ntp_raw_survey_128(
                    reply,
                    self.packet.bytes.as_ptr(),
                    self.packet.bytes.len(),
                    HEADER,
                    self.version,
                    &mut self.seals,
                );
            })
        }
    }

    /// The number of sealed fields, or the number of a refusal from the other end.
    pub fn survey(&mut self) -> u64 {
        let reply = self.raw_survey();
        match reply.number {
            0 => reply.seal_count as u64,
            number => u64::MAX - (number + reply.field_offset) as u64,
        }
    }

    /// Reads into tables that are cleared whole, and looks at nothing.
    pub fn read_alone(&mut self) -> u64 {
        self.used_outer = self.outer.entries.len();
        self.used_inner = self.inner.entries.len();
        self.raw_read().number as u64
    }

    /// All that a host calls for a packet: the survey, each sealed field, reading into tables that are cleared whole,
    /// and each field. Returns what the nonces, ciphertexts and messages hold, as `bound` does.
    pub fn core(&mut self) -> u64 {
        let survey = self.raw_survey();
        let packet = &self.packet.bytes[..];
        let mut sum = 0;
        for index in 0..survey.seal_count {
            // SAFETY: table and count are of one survey, and the reply is stored whole.
            let seal: ffi::NtpRawSeal = unsafe {
                ffi::stored(|reply| {
                    let (seals, count) = (&raw const self.seals, survey.seal_count);
                    ffi::ntp_raw_seal_128(reply, packet.len(), seals, count, index);
                })
            };
            sum += ends(&packet[seal.nonce_offset..][..seal.nonce_len])
                + ends(&packet[seal.ciphertext_offset..][..seal.ciphertext_len]);
        }
        self.used_outer = self.outer.entries.len();
        self.used_inner = self.inner.entries.len();
        let reply = self.raw_read();
        let (version, outer) = (self.version, &raw const self.outer);
        let part = |buffer: &[u8], field: &ffi::NtpRawField| {
            ends(&buffer[field.message_offset..][..field.message_len])
        };
        for index in 0..reply.authenticated_count {
            // SAFETY: table and counts are of one reading, and the reply is stored whole.
            let found: ffi::NtpRawAuthenticatedField = unsafe {
                ffi::stored(|into| {
                    let count = reply.authenticated_count;
                    ffi::ntp_raw_authenticated_field_128(
                        into,
                        packet.len(),
                        version,
                        outer,
                        count,
                        index,
                    );
                })
            };
            sum += part(packet, &found.field);
        }
        for index in 0..reply.untrusted_count {
            // SAFETY: as above.
            let found: ffi::NtpRawUntrustedField = unsafe {
                ffi::stored(|into| {
                    let (before, count) = (reply.authenticated_count, reply.untrusted_count);
                    ffi::ntp_raw_untrusted_field_128(
                        into,
                        packet.len(),
                        version,
                        outer,
                        before,
                        count,
                        index,
                    );
                })
            };
            sum += part(packet, &found.field);
        }
        for index in 0..reply.encrypted_count {
            // SAFETY: as above; the starts are those that were read with.
            let found: ffi::NtpRawEncryptedField = unsafe {
                ffi::stored(|into| {
                    ffi::ntp_raw_encrypted_field_128(
                        into,
                        self.plain.len(),
                        self.starts.as_ptr(),
                        self.starts.len(),
                        version,
                        &self.inner,
                        reply.encrypted_count,
                        index,
                    );
                })
            };
            sum += part(&self.plain, &found.field);
        }
        sum + reply.number as u64
    }

    /// Adds up the messages' lengths, as a caller looks at every field. A refusal is its number, from
    /// the other end.
    fn look(&self, reply: &NtpRawRead) -> u64 {
        if reply.number != 0 {
            return u64::MAX - reply.number as u64;
        }
        let outer = &self.outer.entries[..reply.authenticated_count + reply.untrusted_count];
        let inner = &self.inner.entries[..reply.encrypted_count];
        sum(outer) + sum(inner)
    }
}

/// The length of some bytes, and their first and last one: so that they are looked at.
pub fn ends(bytes: &[u8]) -> u64 {
    let byte = |byte: Option<&u8>| byte.copied().map_or(0, u64::from);
    bytes.len() as u64 + byte(bytes.first()) + byte(bytes.last())
}

fn sum(entries: &[u64]) -> u64 {
    entries.iter().map(|entry| entry & 0xFFFF).sum()
}

fn number_of(version: Version) -> u8 {
    match version {
        Version::V4 => 4,
        Version::V5 => 5,
    }
}

/// Fields as they are lent: a kind, a number, and the place and length of the data.
#[derive(Default)]
struct Described {
    kinds: Vec<u8>,
    numbers: Vec<u16>,
    starts: Vec<usize>,
    lens: Vec<usize>,
    data: Vec<u8>,
}

impl Described {
    fn of(fields: &[FieldToWrite]) -> Self {
        let mut described = Self::default();
        for field in fields {
            let (kind, number, length, has_data) = match *field {
                FieldToWrite::UniqueIdentifier(length) => (1, 0, length, true),
                FieldToWrite::NtsCookie(length) => (2, 0, length, true),
                FieldToWrite::NtsCookiePlaceholder(length) => (3, 0, length, false),
                FieldToWrite::Unknown(length) => (0, 0x2001, length, true),
            };
            described.kinds.push(kind);
            described.numbers.push(number);
            described.starts.push(described.data.len());
            described.lens.push(length);
            let data = if has_data { length } else { 0 };
            described.data.extend(std::iter::repeat_n(0xAA, data));
        }
        described
    }
}

/// Writes fields behind a header, in two stages.
pub struct Writer<'a> {
    what: &'a ToWrite,
    version: u8,
    first: Described,
    second: Described,
    plain: Vec<u8>,
    pub out: Vec<u8>,
}

impl<'a> Writer<'a> {
    pub fn new(what: &'a ToWrite, room: usize) -> Self {
        let first = [&what.authenticated[..], &what.encrypted].concat();
        Self {
            what,
            version: number_of(what.version),
            first: Described::of(&first),
            second: Described::of(&what.untrusted),
            plain: vec![0; room],
            out: vec![0; room],
        }
    }

    /// With a version that is none, which the boundary refuses.
    pub fn of_no_version(what: &'a ToWrite) -> Self {
        Self {
            version: 0,
            ..Self::new(what, HEADER)
        }
    }

    pub fn refused_one(&mut self) -> u64 {
        self.stage_one().number as u64
    }

    pub fn refused_two(&mut self) -> u64 {
        self.stage_two(HEADER).number as u64
    }

    /// How many bytes were written.
    pub fn write(&mut self) -> u64 {
        let first = self.stage_one();
        assert_eq!(first.number, 0);
        let second = self.stage_two(first.associated_data_len);
        assert_eq!(second.number, 0);
        (first.output_len + second.len) as u64
    }

    fn stage_one(&mut self) -> NtpRawStageOne {
        let fields = &self.first;
        // SAFETY: every pointer comes with the length of what it points to, and the reply is stored whole.
        unsafe {
            ffi::stored(|reply| {
                ffi::ntp_raw_stage_one(
                    reply,
                    self.out.as_mut_ptr(),
                    self.out.len(),
                    HEADER,
                    self.plain.as_mut_ptr(),
                    self.plain.len(),
                    fields.kinds.as_ptr(),
                    fields.kinds.len(),
                    fields.numbers.as_ptr(),
                    fields.numbers.len(),
                    fields.starts.as_ptr(),
                    fields.starts.len(),
                    fields.lens.as_ptr(),
                    fields.lens.len(),
                    fields.data.as_ptr(),
                    fields.data.len(),
                    self.version,
                    1,
                    self.what.authenticated.len(),
                    self.what.encrypted.len(),
                );
            })
        }
    }

    fn stage_two(&mut self, at: usize) -> NtpRawLength {
        let fields = &self.second;
        let has_seal = !self.first.kinds.is_empty();
        // SAFETY: as above.
        unsafe {
            ffi::ntp_raw_stage_two(
                self.out.as_mut_ptr(),
                self.out.len(),
                at,
                usize::from(has_seal),
                self.what.nonce.as_ptr(),
                self.what.nonce.len(),
                self.what.ciphertext.as_ptr(),
                self.what.ciphertext.len(),
                fields.kinds.as_ptr(),
                fields.kinds.len(),
                fields.numbers.as_ptr(),
                fields.numbers.len(),
                fields.starts.as_ptr(),
                fields.starts.len(),
                fields.lens.as_ptr(),
                fields.lens.len(),
                fields.data.as_ptr(),
                fields.data.len(),
                self.version,
                self.what.untrusted.len(),
            )
        }
    }
}

/// A header of the binding, of either kind. Its bytes are a header, and there is room.
pub trait AnyHeader: Sized {
    /// The stratum, as the library's own function reads it. Inlined, so that no other call is timed.
    fn raw_stratum(bytes: &[u8]) -> u8;
    fn deserialized(bytes: &[u8]) -> Self;
    fn stratum(&self) -> u8;
    fn serialized(&self, out: &mut [u8]) -> usize;
    fn distance_seconds(&self) -> f64;
}

impl AnyHeader for NtpHeaderV5 {
    #[inline(always)]
    fn raw_stratum(bytes: &[u8]) -> u8 {
        // SAFETY: the pointer comes with the length of what it points to, and the reply is stored whole.
        let reply: NtpHeaderRead = unsafe {
            ffi::stored(|reply| ffi::ntp_raw_header_read(reply, bytes.as_ptr(), bytes.len()))
        };
        assert_eq!(reply.number, 0);
        black_box(&reply);
        reply.header.stratum
    }

    fn deserialized(bytes: &[u8]) -> Self {
        Self::deserialize(bytes).expect("a header")
    }

    fn stratum(&self) -> u8 {
        self.stratum
    }

    fn serialized(&self, out: &mut [u8]) -> usize {
        self.serialize(out, 0).expect("there is room")
    }

    fn distance_seconds(&self) -> f64 {
        self.time_reading().distance_seconds
    }
}

impl AnyHeader for NtpHeaderV3V4 {
    #[inline(always)]
    fn raw_stratum(bytes: &[u8]) -> u8 {
        // SAFETY: as above.
        let reply: NtpHeaderV3V4Read = unsafe {
            ffi::stored(|reply| ffi::ntp_raw_header_v3v4_read(reply, bytes.as_ptr(), bytes.len()))
        };
        assert_eq!(reply.number, 0);
        black_box(&reply);
        reply.header.stratum
    }

    fn deserialized(bytes: &[u8]) -> Self {
        Self::deserialize(bytes).expect("a header")
    }

    fn stratum(&self) -> u8 {
        self.stratum
    }

    fn serialized(&self, out: &mut [u8]) -> usize {
        self.serialize(out, 0).expect("there is room")
    }

    fn distance_seconds(&self) -> f64 {
        self.time_reading().distance_seconds
    }
}

/// Reads and writes a header, and reads its times.
pub struct Header<H> {
    header: H,
    bytes: Vec<u8>,
    pub out: Vec<u8>,
}

impl<H: AnyHeader> Header<H> {
    pub fn new(bytes: &[u8]) -> Self {
        Self {
            header: H::deserialized(bytes),
            bytes: bytes.to_vec(),
            out: vec![0; HEADER],
        }
    }

    /// As the library has it.
    pub fn raw(&self) -> u64 {
        u64::from(H::raw_stratum(black_box(&self.bytes)))
    }

    /// As the binding has it.
    pub fn read(&self) -> u64 {
        let header = H::deserialized(black_box(&self.bytes));
        black_box(&header);
        u64::from(header.stratum())
    }

    pub fn write(&mut self) -> u64 {
        black_box(&self.header).serialized(&mut self.out) as u64
    }

    pub fn reading(&self) -> u64 {
        black_box(&self.header).distance_seconds().to_bits()
    }
}
