//! The library's own functions, for arguments that the binding's public interface can't express: results that are not
//! well formed or not in a row, a marker to write, a request without an offset, a header with a leap, version or mode
//! that it can't hold.

use crate::format::{self, NotACase, Parsed, hex, list};
use crate::read::Case as Read;
use crate::write::{Case as Write, PLAINTEXT};
use lobzhinar::ExtensionHeaderVersion;
use lobzhinar::ffi::{
    self, InnerTable, NtpHeaderV3V4, NtpRawAuthenticatedField, NtpRawEncryptedField, NtpRawField,
    NtpRawLength, NtpRawRead, NtpRawStageOne, NtpRawUntrustedField, OuterTable, TABLE,
};

/// The names of the kinds, by number.
const KINDS: [&str; 9] = [
    "Unknown",
    "UniqueIdentifier",
    "NtsCookie",
    "NtsCookiePlaceholder",
    "DraftIdentification",
    "Padding",
    "ReferenceIdRequest",
    "ReferenceIdResponse",
    "InvalidNtsEncryptedField",
];

fn number_of(version: ExtensionHeaderVersion) -> u8 {
    match version {
        ExtensionHeaderVersion::V4 => 4,
        ExtensionHeaderVersion::V5 => 5,
    }
}

fn length(reply: NtpRawLength) -> Result<usize, usize> {
    match reply.number {
        0 => Ok(reply.len),
        number => Err(number),
    }
}

/// A writer's answer, which ends with the output.
pub fn wrote(result: Result<usize, usize>, out: &[u8]) -> String {
    match result {
        Ok(count) => format!("0 {count} {}", hex(out)),
        Err(number) => format!("{number} {}", hex(out)),
    }
}

pub fn header34_write(header: &NtpHeaderV3V4, out: &mut [u8], at: usize) -> Result<usize, usize> {
    // SAFETY: the pointer is of a slice, with its length.
    length(unsafe {
        ffi::ntp_raw_header_v3v4_write(
            header.leap,
            header.version,
            header.mode,
            header.poll,
            header.root_delay,
            header.root_dispersion,
            header.stratum,
            header.precision_log2_seconds,
            header.reference_id,
            header.reference_timestamp,
            header.origin_timestamp,
            header.receive_timestamp,
            header.transmit_timestamp,
            out.as_mut_ptr(),
            out.len(),
            at,
        )
    })
}

pub fn request_write(
    payload_len: u16,
    filter_offset: u16,
    out: &mut [u8],
    at: usize,
) -> Result<usize, usize> {
    // SAFETY: the pointer is of a slice, with its length.
    length(unsafe {
        ffi::ntp_raw_request_write(payload_len, filter_offset, out.as_mut_ptr(), out.len(), at)
    })
}

pub fn response_cut(payload_len: u16, filter_offset: u16, filter: &[u8]) -> Result<usize, usize> {
    // SAFETY: the pointer is of a slice, with its length.
    length(unsafe {
        ffi::ntp_raw_response_cut(payload_len, filter_offset, filter.as_ptr(), filter.len())
    })
}

pub fn read(case: &Read) -> String {
    // No verdict over 255 has a meaning, and 255 has none either.
    let verdicts: Vec<u8> = case
        .results
        .iter()
        .map(|r| r.verdict.min(255) as u8)
        .collect();
    let starts: Vec<usize> = case.results.iter().map(|r| r.start as usize).collect();
    let lens: Vec<usize> = case.results.iter().map(|r| r.len as usize).collect();
    let (mut outer, mut inner) = (OuterTable::BLANK, InnerTable::BLANK);
    // SAFETY: every pointer is of a slice, with its length, or of a table, and the reply is stored whole.
    let reply: NtpRawRead = unsafe {
        ffi::stored(|reply| {
            ffi::ntp_raw_read_128(
                reply,
                case.packet.as_ptr(),
                case.packet.len(),
                case.header_size,
                number_of(case.version),
                verdicts.as_ptr(),
                verdicts.len(),
                starts.as_ptr(),
                starts.len(),
                lens.as_ptr(),
                lens.len(),
                case.plaintexts.as_ptr(),
                case.plaintexts.len(),
                &mut outer,
                TABLE,
                &mut inner,
                TABLE,
            );
        })
    };
    if !matches!(reply.number, 0 | 5) {
        return format!("{} {}", reply.number, reply.field_offset);
    }
    let filled = Filled {
        case,
        starts,
        outer,
        inner,
        reply,
    };
    let outer: Vec<String> = filled.authenticated().chain(filled.untrusted()).collect();
    let inner: Vec<String> = filled.encrypted().collect();
    let cookie = match reply.has_cookie {
        0 => "-".to_string(),
        _ => reply.cookie_seal.to_string(),
    };
    let (number, rest) = (reply.number, reply.remainder_len);
    format!("{number} {} {} {rest} {cookie}", list(&outer), list(&inner))
}

/// Tables that reading has filled.
struct Filled<'a> {
    case: &'a Read,
    starts: Vec<usize>,
    outer: OuterTable,
    inner: InnerTable,
    reply: NtpRawRead,
}

impl Filled<'_> {
    fn authenticated(&self) -> impl Iterator<Item = String> {
        let (packet, count) = (&self.case.packet, self.reply.authenticated_count);
        (0..count).map(move |index| {
            // SAFETY: table and count are of one reading, and the reply is stored whole.
            let reply: NtpRawAuthenticatedField = unsafe {
                ffi::stored(|reply| {
                    ffi::ntp_raw_authenticated_field_128(
                        reply,
                        packet.len(),
                        number_of(self.case.version),
                        &self.outer,
                        count,
                        index,
                    );
                })
            };
            entry(&reply.field, packet, 'a')
        })
    }

    fn untrusted(&self) -> impl Iterator<Item = String> {
        let (packet, count) = (&self.case.packet, self.reply.untrusted_count);
        (0..count).map(move |index| {
            // SAFETY: as above.
            let reply: NtpRawUntrustedField = unsafe {
                ffi::stored(|reply| {
                    ffi::ntp_raw_untrusted_field_128(
                        reply,
                        packet.len(),
                        number_of(self.case.version),
                        &self.outer,
                        self.reply.authenticated_count,
                        count,
                        index,
                    );
                })
            };
            entry(&reply.field, packet, 'u')
        })
    }

    fn encrypted(&self) -> impl Iterator<Item = String> {
        let (plaintexts, count) = (&self.case.plaintexts, self.reply.encrypted_count);
        (0..count).map(move |index| {
            // SAFETY: as above; the starts are those that were read with.
            let reply: NtpRawEncryptedField = unsafe {
                ffi::stored(|reply| {
                    ffi::ntp_raw_encrypted_field_128(
                        reply,
                        plaintexts.len(),
                        self.starts.as_ptr(),
                        self.starts.len(),
                        number_of(self.case.version),
                        &self.inner,
                        count,
                        index,
                    );
                })
            };
            entry(&reply.field, plaintexts, 'e')
        })
    }
}

fn entry(field: &NtpRawField, buffer: &[u8], trust: char) -> String {
    assert_eq!(field.number, 0);
    let bytes = &buffer[field.message_offset..][..field.message_len];
    format!(
        "{}:{}:{}:{}:{}:{trust}:{}",
        KINDS[field.kind],
        field.type_id,
        field.field_offset,
        field.message_len,
        field.wire_length,
        hex(bytes)
    )
}

/// Fields as the library takes them: a kind, a number, and the place and length of the bytes.
#[derive(Default)]
struct Described {
    kinds: Vec<u8>,
    numbers: Vec<u16>,
    starts: Vec<usize>,
    lens: Vec<usize>,
    data: Vec<u8>,
}

impl Described {
    fn of<'a>(fields: impl Iterator<Item = &'a Vec<&'a str>>) -> Parsed<Self> {
        let mut described = Self::default();
        for parts in fields {
            match parts[..] {
                ["unknown", type_id, data] => {
                    described.bytes(0, format::number(type_id)?, &format::bytes(data)?);
                }
                ["uid", data] => described.bytes(1, 0, &format::bytes(data)?),
                ["cookie", data] => described.bytes(2, 0, &format::bytes(data)?),
                ["placeholder", length] => {
                    described.add(3, 0, format::number::<u16>(length)?.into());
                }
                ["draft", text] => described.bytes(4, 0, &format::bytes(text)?),
                ["padding", length] => described.add(5, 0, format::number::<u64>(length)? as usize),
                ["request", payload, offset] => {
                    let payload: u16 = format::number(payload)?;
                    described.add(6, format::number(offset)?, payload.into());
                }
                ["response", data] => described.bytes(7, 0, &format::bytes(data)?),
                ["marker"] => described.add(8, 0, 0),
                _ => return Err(NotACase),
            }
        }
        Ok(described)
    }

    fn bytes(&mut self, kind: u8, number: u16, data: &[u8]) {
        self.add(kind, number, data.len());
        self.data.extend(data);
    }

    fn add(&mut self, kind: u8, number: u16, len: usize) {
        self.kinds.push(kind);
        self.numbers.push(number);
        self.starts.push(self.data.len());
        self.lens.push(len);
    }
}

pub fn write(case: &Write) -> Parsed<String> {
    let sealed = Described::of(case.authenticated.iter().chain(&case.encrypted))?;
    let untrusted = Described::of(case.untrusted.iter())?;
    let (mut out, mut plaintext) = (case.out.clone(), vec![0; PLAINTEXT]);
    // SAFETY: every pointer is of a slice, with its length, and the reply is stored whole.
    let first: NtpRawStageOne = unsafe {
        ffi::stored(|reply| {
            ffi::ntp_raw_stage_one(
                reply,
                out.as_mut_ptr(),
                out.len(),
                case.at,
                plaintext.as_mut_ptr(),
                plaintext.len(),
                sealed.kinds.as_ptr(),
                sealed.kinds.len(),
                sealed.numbers.as_ptr(),
                sealed.numbers.len(),
                sealed.starts.as_ptr(),
                sealed.starts.len(),
                sealed.lens.as_ptr(),
                sealed.lens.len(),
                sealed.data.as_ptr(),
                sealed.data.len(),
                number_of(case.version),
                u8::from(case.has_cipher),
                case.authenticated.len(),
                case.encrypted.len(),
            );
        })
    };
    if first.number != 0 {
        return Ok(wrote(Err(first.number), &out));
    }
    // SAFETY: every pointer is of a slice, with its length.
    let second = length(unsafe {
        ffi::ntp_raw_stage_two(
            out.as_mut_ptr(),
            out.len(),
            first.associated_data_len,
            first.owes_seal,
            case.nonce.as_ptr(),
            case.nonce.len(),
            case.ciphertext.as_ptr(),
            case.ciphertext.len(),
            untrusted.kinds.as_ptr(),
            untrusted.kinds.len(),
            untrusted.numbers.as_ptr(),
            untrusted.numbers.len(),
            untrusted.starts.as_ptr(),
            untrusted.starts.len(),
            untrusted.lens.as_ptr(),
            untrusted.lens.len(),
            untrusted.data.as_ptr(),
            untrusted.data.len(),
            number_of(case.version),
            untrusted.kinds.len(),
        )
    });
    Ok(match second {
        Err(number) => wrote(Err(number), &out),
        Ok(more) => {
            let plaintext = hex(&plaintext[..first.plaintext_len]);
            format!("0 {} {plaintext} {}", first.output_len + more, hex(&out))
        }
    })
}
