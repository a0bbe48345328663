//! Fields as they stand in a packet or in a plaintext, sound and faulty.

use super::random::Random;

pub const UNIQUE_IDENTIFIER: u16 = 0x0104;
pub const COOKIE: u16 = 0x0204;
pub const PLACEHOLDER: u16 = 0x0304;
pub const SEALED: u16 = 0x0404;
pub const DRAFT: u16 = 0xF5FF;
pub const REQUEST: u16 = 0xF503;
pub const RESPONSE: u16 = 0xF504;
pub const PADDING: u16 = 0xF501;

/// Types that some rule names, but for sealed fields.
pub const PLAIN_TYPES: [u16; 7] = [
    UNIQUE_IDENTIFIER,
    COOKIE,
    PLACEHOLDER,
    DRAFT,
    REQUEST,
    RESPONSE,
    PADDING,
];

/// Types beside those, or made of the same bytes.
const NEAR_TYPES: [u16; 14] = [
    0x0000, 0x0004, 0x0103, 0x0105, 0x0401, 0x0403, 0x0405, 0x0504, 0xF500, 0xF502, 0xF505, 0xF5FE,
    0xFFF5, 0xFFFF,
];

/// Any type, a named one mostly.
pub fn type_id(random: &mut Random) -> u16 {
    match random.below(8) {
        0 => SEALED,
        1 => random.pick(&NEAR_TYPES),
        2 => random.next() as u16,
        _ => random.pick(&PLAIN_TYPES),
    }
}

/// Any type but the sealed field's.
fn plain_type(random: &mut Random) -> u16 {
    match type_id(random) {
        SEALED => COOKIE,
        type_id => type_id,
    }
}

/// Makes the fields of one packet.
pub struct Fields<'r> {
    pub random: &'r mut Random,
    pub version: u8,
    /// One in so many fields has a fault.
    pub rarity: usize,
}

impl Fields<'_> {
    fn faulty(&mut self) -> bool {
        self.random.one_in(self.rarity)
    }

    /// A field of any type but a sealed one.
    pub fn plain(&mut self) -> Vec<u8> {
        let type_id = plain_type(self.random);
        let length = self.random.length();
        let message = self.message(type_id, length);
        self.framed(type_id, message)
    }

    /// A field of about the given message length.
    pub fn of_length(&mut self, type_id: u16, length: usize) -> Vec<u8> {
        let message = self.message(type_id, length);
        self.framed(type_id, message)
    }

    /// The frame around a message, with padding after it.
    pub fn framed(&mut self, type_id: u16, mut message: Vec<u8>) -> Vec<u8> {
        // In V4 the padding is part of the message.
        if self.version == 4 && !self.faulty() {
            message.resize(message.len().next_multiple_of(4), 0);
        }
        let mut stated = message.len() + 4;
        if self.faulty() {
            stated = self.wrong_length(stated);
        }
        let mut field = type_id.to_be_bytes().to_vec();
        field.extend((stated as u16).to_be_bytes());
        field.extend(message);
        let padding = field.len().next_multiple_of(4) - field.len();
        field.extend(if self.random.one_in(3) {
            self.random.bytes(padding)
        } else {
            vec![0; padding]
        });
        field
    }

    fn wrong_length(&mut self, right: usize) -> usize {
        let small = self.random.below(10);
        let changed = [right - 1, right + 1, right + 2, right + 4, right ^ 0x0100];
        let changed = self.random.pick(&changed);
        self.random
            .pick(&[small, small, changed, changed, 65_532, 65_535])
    }

    /// A message that suits its type, unless it is to be faulty.
    fn message(&mut self, type_id: u16, length: usize) -> Vec<u8> {
        match type_id {
            PLACEHOLDER => {
                let mut message = vec![0; length];
                if self.faulty() {
                    let other = self.random.pick(&[1, 0x80, 0xFF]);
                    self.set_a_byte(&mut message, other);
                }
                message
            }
            DRAFT => self.draft(length),
            REQUEST if self.faulty() => {
                let length = self.random.below(4);
                self.random.bytes(length)
            }
            REQUEST => self.random.bytes(length.max(2)),
            _ => self.random.bytes(length),
        }
    }

    /// ASCII text, now and then with zeros after it, or with a high byte.
    fn draft(&mut self, length: usize) -> Vec<u8> {
        let mut text = match self.random.below(4) {
            0 => b"draft-ietf-ntp-ntpv5-08".to_vec(),
            _ => self.random.bytes(length),
        };
        text.iter_mut().for_each(|byte| *byte &= 0x7F);
        if self.random.one_in(4) {
            text.extend([0, 0, 0]);
        }
        if self.faulty() {
            let high = self.random.pick(&[0x80, 0xC3, 0xFF]);
            self.set_a_byte(&mut text, high);
        }
        text
    }

    /// Changes a byte at the start, in the middle or at the end.
    fn set_a_byte(&mut self, message: &mut [u8], to: u8) {
        let last = message.len().saturating_sub(1);
        let place = self.random.pick(&[0, last / 2, last]);
        if let Some(byte) = message.get_mut(place) {
            *byte = to;
        }
    }

    /// The fields of a plaintext; as a fault a sealed one, or an end cut off.
    pub fn plaintext(&mut self, count: usize) -> Vec<u8> {
        let mut plaintext = Vec::new();
        for _ in 0..count {
            let field = if self.faulty() {
                self.sealed(0)
            } else {
                self.plain()
            };
            plaintext.extend(field);
        }
        if self.faulty() {
            plaintext.truncate(plaintext.len().saturating_sub(self.random.between(1, 5)));
        }
        plaintext
    }

    /// A sealed field whose plaintext has the given length.
    pub fn sealed(&mut self, plaintext: usize) -> Vec<u8> {
        let nonce = match self.random.below(3) {
            0 => self.random.below(21),
            _ => 16,
        };
        let more = self.random.pick(&[16, 16, 16, 0, 0, 1, 2, 3, 8]);
        let mut ciphertext = plaintext + more;
        if self.random.one_in(self.rarity) {
            ciphertext = plaintext / 2;
        }
        let after = self.random.pick(&[0, 0, 0, 0, 1, 4, 7]);
        self.sealed_of(nonce, ciphertext, after)
    }

    /// A sealed field with nonce and ciphertext of these lengths, and bytes
    /// after them.
    pub fn sealed_of(&mut self, nonce: usize, ciphertext: usize, after: usize) -> Vec<u8> {
        let mut message = (nonce as u16).to_be_bytes().to_vec();
        message.extend((ciphertext as u16).to_be_bytes());
        let rest = nonce.next_multiple_of(4) + ciphertext + after;
        message.extend(self.random.bytes(rest));
        if self.faulty() {
            self.spoil_lengths(&mut message);
        }
        self.framed(SEALED, message)
    }

    /// Makes the lengths inside a sealed field exceed its message.
    fn spoil_lengths(&mut self, message: &mut Vec<u8>) {
        let room = message.len() - 4;
        match self.random.below(5) {
            0 => message.truncate(self.random.below(4)),
            1 => message.truncate(message.len() - 1),
            2 => message.extend([0; 3]),
            3 => {
                let nonce = self.random.pick(&[room, room + 1, 65_533, 65_535]) as u16;
                message[..2].copy_from_slice(&nonce.to_be_bytes());
            }
            _ => {
                let ciphertext = self.random.pick(&[room, room + 1, 65_535]) as u16;
                message[2..4].copy_from_slice(&ciphertext.to_be_bytes());
            }
        }
    }
}
