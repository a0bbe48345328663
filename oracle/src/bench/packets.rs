//! What is read: document 02's three mixes, and what most servers see.

use crate::packet::extension_fields::ExtensionHeaderVersion as Version;

/// A packet, and the plaintext of its one sealed field if it has one.
pub struct Packet {
    pub name: String,
    pub version: Version,
    pub bytes: Vec<u8>,
    pub plain: Option<Vec<u8>>,
}

pub const HEADER: usize = 48;

/// A header of NTPv5, in which every part has bytes of its own.
pub const NTP5_HEADER: [u8; 48] = [
    0xAC, 0x02, 0x0A, 0xE9, 0x10, 0x00, 0x00, 0x01, 0x08, 0x00, 0x00, 0x02, 0x03, 0x07, 0x00, 0x05,
    0x11, 0x12, 0x13, 0x14, 0x15, 0x16, 0x17, 0x18, 0x21, 0x22, 0x23, 0x24, 0x25, 0x26, 0x27, 0x28,
    0x31, 0x32, 0x33, 0x34, 0x35, 0x36, 0x37, 0x38, 0x41, 0x42, 0x43, 0x44, 0x45, 0x46, 0x47, 0x48,
];

/// The same of NTPv4.
pub const NTP4_HEADER: [u8; 48] = [
    0xA4, 0x02, 0x0A, 0xE9, 0x00, 0x01, 0x00, 0x03, 0x00, 0x00, 0x80, 0x05, 0x47, 0x50, 0x53, 0x01,
    0x11, 0x12, 0x13, 0x14, 0x15, 0x16, 0x17, 0x18, 0x21, 0x22, 0x23, 0x24, 0x25, 0x26, 0x27, 0x28,
    0x31, 0x32, 0x33, 0x34, 0x35, 0x36, 0x37, 0x38, 0x41, 0x42, 0x43, 0x44, 0x45, 0x46, 0x47, 0x48,
];

pub fn all() -> Vec<Packet> {
    vec![
        Packet {
            name: "V4, 48 bytes, no field".to_string(),
            version: Version::V4,
            bytes: vec![0; HEADER],
            plain: None,
        },
        Packet {
            name: "V4 NTS request".to_string(),
            version: Version::V4,
            bytes: sealed(&[(0x0104, 32), (0x0204, 100)], 16),
            plain: Some(vec![]),
        },
        Packet {
            name: "V4 NTS response, eight cookies".to_string(),
            version: Version::V4,
            bytes: sealed(&[(0x0104, 32)], 8 * 104 + 16),
            plain: Some(fields(&[(0x0204, 100); 8])),
        },
        Packet {
            name: "V5, forty fields".to_string(),
            version: Version::V5,
            bytes: after_header(fields(&[(0x2001, 16); 40])),
            plain: None,
        },
        Packet {
            name: "V5, seven placeholders of 1,024 bytes".to_string(),
            version: Version::V5,
            bytes: after_header(placeholders(7, 1024)),
            plain: None,
        },
        Packet {
            name: "V5, refused at the first field".to_string(),
            version: Version::V5,
            bytes: after_header(vec![0x20, 0x01, 0x00]),
            plain: None,
        },
    ]
}

/// What is written: fields of a kind with a length, for each list, and what the host's cipher gives.
pub struct ToWrite {
    pub name: &'static str,
    pub version: Version,
    pub authenticated: Vec<FieldToWrite>,
    pub encrypted: Vec<FieldToWrite>,
    pub untrusted: Vec<FieldToWrite>,
    pub nonce: Vec<u8>,
    pub ciphertext: Vec<u8>,
}

#[derive(Clone, Copy)]
pub enum FieldToWrite {
    UniqueIdentifier(usize),
    NtsCookie(usize),
    NtsCookiePlaceholder(usize),
    Unknown(usize),
}

pub fn all_to_write() -> Vec<ToWrite> {
    use FieldToWrite::*;
    let request = |name, placeholders| ToWrite {
        name,
        version: Version::V4,
        authenticated: [
            vec![UniqueIdentifier(32), NtsCookie(100)],
            vec![NtsCookiePlaceholder(100); placeholders],
        ]
        .concat(),
        encrypted: vec![],
        untrusted: vec![],
        nonce: vec![0xBB; 16],
        ciphertext: vec![0xCC; 16],
    };
    vec![
        request("V4 NTS request", 0),
        request("V4 NTS request, seven placeholders", 7),
        ToWrite {
            name: "V4 NTS response, eight cookies",
            version: Version::V4,
            authenticated: vec![UniqueIdentifier(32)],
            encrypted: vec![NtsCookie(100); 8],
            untrusted: vec![],
            nonce: vec![0xBB; 16],
            ciphertext: vec![0xCC; 8 * 104 + 16],
        },
        ToWrite {
            name: "V5, forty fields",
            version: Version::V5,
            authenticated: vec![],
            encrypted: vec![],
            untrusted: vec![Unknown(16); 40],
            nonce: vec![],
            ciphertext: vec![],
        },
    ]
}

/// So many untrusted V5 fields of so many bytes to write.
pub fn plain_to_write(count: usize, length: usize) -> ToWrite {
    ToWrite {
        name: "plain fields",
        version: Version::V5,
        authenticated: vec![],
        encrypted: vec![],
        untrusted: vec![FieldToWrite::Unknown(length); count],
        nonce: vec![],
        ciphertext: vec![],
    }
}

/// A V5 packet with so many fields, each with a message of so many bytes.
pub fn plain(count: usize, length: usize) -> Packet {
    let list = vec![(0x2001, length); count];
    of_fields("plain fields", fields(&list))
}

/// A V5 packet with one placeholder of so many bytes.
pub fn placeholder(length: usize) -> Packet {
    of_fields("a placeholder", placeholders(1, length))
}

/// A V5 packet with one field of a type and a message of any length.
#[cfg(feature = "earlier")]
pub fn one_field(kind: u16, message: Vec<u8>) -> Packet {
    let mut region = field(kind, message);
    region.resize(region.len().next_multiple_of(4), 0);
    of_fields("one field", region)
}

fn of_fields(name: &str, region: Vec<u8>) -> Packet {
    Packet {
        name: name.to_string(),
        version: Version::V5,
        bytes: after_header(region),
        plain: None,
    }
}

fn after_header(region: Vec<u8>) -> Vec<u8> {
    [vec![0; HEADER], region].concat()
}

fn fields(list: &[(u16, usize)]) -> Vec<u8> {
    list.iter()
        .flat_map(|&(kind, length)| field(kind, vec![0xAA; length]))
        .collect()
}

fn placeholders(count: usize, length: usize) -> Vec<u8> {
    (0..count)
        .flat_map(|_| field(0x0304, vec![0; length]))
        .collect()
}

fn field(kind: u16, message: Vec<u8>) -> Vec<u8> {
    let length = u16::try_from(message.len() + 4).expect("a short message");
    [&kind.to_be_bytes()[..], &length.to_be_bytes(), &message].concat()
}

/// A header, plain fields, and a sealed field with a nonce of 16 bytes.
fn sealed(before: &[(u16, usize)], ciphertext: usize) -> Vec<u8> {
    let lengths = [0, 16, (ciphertext >> 8) as u8, ciphertext as u8];
    let message = [&lengths[..], &[0xBB; 16], &vec![0xCC; ciphertext]].concat();
    after_header([fields(before), field(0x0404, message)].concat())
}
