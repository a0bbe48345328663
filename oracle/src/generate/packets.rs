//! Whole packets of random shape, good ones and damaged ones.

use super::fields::{COOKIE, DRAFT, Fields, PLACEHOLDER, REQUEST, RESPONSE, UNIQUE_IDENTIFIER};
use super::random::Random;

/// What a sealed field of a packet is opened to.
pub struct Sealing {
    pub verdict: u64,
    pub plaintext: Vec<u8>,
}

/// A packet and the sealings of its sealed fields in wire order.
pub struct Packet {
    pub version: u8,
    pub header: usize,
    pub bytes: Vec<u8>,
    pub sealings: Vec<Sealing>,
}

/// Any packet.
pub fn packet(random: &mut Random) -> Packet {
    let version = random.version();
    let mut region = Region::new(random, version);
    region.fill();
    region.add_tail();
    let Region {
        fields: Fields { random, .. },
        bytes: mut region,
        sealings,
        ..
    } = region;
    if random.one_in(4) {
        damage(random, &mut region);
    }
    let header = match random.below(8) {
        0..3 => 0,
        3 => random.below(60),
        _ => 48,
    };
    let bytes = [random.bytes(header), region].concat();
    Packet {
        version,
        header: stated_header(random, header, bytes.len()),
        bytes,
        sealings,
    }
}

/// The header's size, or now and then one near the packet's end.
fn stated_header(random: &mut Random, header: usize, length: usize) -> usize {
    if !random.one_in(60) {
        return header;
    }
    let before = length.saturating_sub(random.below(30));
    let past = length + random.pick(&[1, 2, 65_536, usize::MAX - length]);
    random.pick(&[length, before, past, past])
}

/// Changes, adds or takes away a byte, or cuts the end off.
fn damage(random: &mut Random, bytes: &mut Vec<u8>) {
    let place = random.below(bytes.len() + 1);
    match random.below(6) {
        0 => bytes.insert(place, random.byte()),
        1 => bytes.truncate(place),
        2 => bytes.truncate(bytes.len().saturating_sub(1)),
        _ if place == bytes.len() => bytes.push(0),
        3 => drop(bytes.remove(place)),
        4 => bytes[place] ^= 1 << random.below(8),
        _ => bytes[place] = random.byte(),
    }
}

/// The part of a packet after its header, while it is made.
struct Region<'r> {
    fields: Fields<'r>,
    /// Of twenty sealed fields so many are opened.
    opened: usize,
    /// Whether their number is what matters, so that the last one has to be read too.
    counted: bool,
    bytes: Vec<u8>,
    sealings: Vec<Sealing>,
}

impl<'r> Region<'r> {
    fn new(random: &'r mut Random, version: u8) -> Self {
        let opened = random.pick(&[20, 20, 20, 20, 16, 10, 0]);
        Self {
            fields: Fields {
                random,
                version,
                rarity: 40,
            },
            opened,
            counted: false,
            bytes: Vec::new(),
            sealings: Vec::new(),
        }
    }

    /// Fills the region with fields after one of several patterns.
    fn fill(&mut self) {
        match self.fields.random.below(64) {
            0..33 => self.fill_with_few(),
            33..40 => self.fill_as_request(),
            40..45 => self.fill_as_response(),
            45..51 => self.fill_as_v5(),
            51..57 => {
                let length = self.fields.random.below(33);
                self.bytes = self.fields.random.bytes(length);
            }
            57 | 58 => self.fill_with_many_items(),
            59 | 60 => self.fill_with_many_sealed(),
            61 | 62 => self.fill_with_many_inner(),
            _ if self.fields.random.one_in(5) => self.fill_to_the_limit(),
            _ => self.fill_with_few(),
        }
    }

    fn add(&mut self, field: Vec<u8>) {
        self.bytes.extend(field);
    }

    fn add_of(&mut self, type_id: u16, length: usize) {
        let field = self.fields.of_length(type_id, length);
        self.add(field);
    }

    /// Adds a sealed field that holds so many fields, and its sealing.
    fn add_sealed(&mut self, count: usize) {
        let plaintext = self.fields.plaintext(count);
        let field = self.fields.sealed(plaintext.len());
        self.add(field);
        self.seal(plaintext);
    }

    /// Adds a sealed field of eight bytes, and its sealing.
    fn add_empty_sealed(&mut self, is_opened: bool) {
        let field = self.fields.sealed_of(0, 0, 0);
        self.add(field);
        self.seal_as(is_opened, Vec::new());
    }

    fn seal(&mut self, plaintext: Vec<u8>) {
        let is_opened = self.fields.random.below(20) < self.opened;
        self.seal_as(is_opened, plaintext);
    }

    fn seal_as(&mut self, is_opened: bool, plaintext: Vec<u8>) {
        let verdicts: &[u64] = if is_opened { &[2, 2, 3] } else { &[0, 1] };
        let verdict = self.fields.random.pick(verdicts);
        self.sealings.push(Sealing { verdict, plaintext });
    }

    fn fill_with_few(&mut self) {
        for _ in 0..self.fields.random.below(6) {
            if self.fields.random.one_in(3) {
                let count = self.fields.random.pick(&[0, 0, 1, 1, 2, 3]);
                self.add_sealed(count);
            } else {
                let field = self.fields.plain();
                self.add(field);
            }
        }
    }

    /// What an NTS client sends.
    fn fill_as_request(&mut self) {
        let cookie = self.fields.random.pick(&[16, 20, 100]);
        self.add_of(UNIQUE_IDENTIFIER, 32);
        self.add_of(COOKIE, cookie);
        for _ in 0..self.fields.random.below(4) {
            self.add_of(PLACEHOLDER, cookie);
        }
        self.add_sealed(0);
    }

    /// What an NTS server sends.
    fn fill_as_response(&mut self) {
        let cookie = self.fields.random.pick(&[16, 20, 100]);
        self.add_of(UNIQUE_IDENTIFIER, 32);
        let mut plaintext = Vec::new();
        for _ in 0..self.fields.random.between(1, 4) {
            plaintext.extend(self.fields.of_length(COOKIE, cookie));
        }
        let field = self.fields.sealed_of(16, plaintext.len() + 16, 0);
        self.add(field);
        self.seal(plaintext);
    }

    /// What an NTPv5 peer sends.
    fn fill_as_v5(&mut self) {
        let chunk = self.fields.random.pick(&[4, 16, 32]);
        self.add_of(DRAFT, 23);
        let type_id = self.fields.random.pick(&[REQUEST, RESPONSE]);
        self.add_of(type_id, chunk);
        if self.fields.random.one_in(2) {
            let field = self.fields.plain();
            self.add(field);
        }
    }

    /// Draws how many fields to put in. Few are faulty, and mostly all are read.
    fn draw_many(&mut self) -> usize {
        self.counted = true;
        self.fields.rarity = 3000;
        self.fields.random.many()
    }

    /// About as many outer items as a table holds: plain fields, and sealed ones
    /// that are not opened. The opened ones between them are no items.
    fn fill_with_many_items(&mut self) {
        // Of twenty items so many are markers.
        let markers = self.fields.random.pick(&[0, 1, 5, 10]);
        for _ in 0..self.draw_many() {
            if self.fields.random.below(20) < markers {
                self.add_empty_sealed(false);
            } else {
                let types = [UNIQUE_IDENTIFIER, COOKIE, PLACEHOLDER];
                let type_id = self.fields.random.pick(&types);
                let length = self.fields.random.below(3);
                self.add_of(type_id, length);
            }
            if self.fields.random.one_in(100) {
                self.add_empty_sealed(true);
            }
        }
    }

    /// About as many sealed fields as a survey lists: all opened, none, or some.
    /// Or about as many opened ones, and about as many items between them.
    fn fill_with_many_sealed(&mut self) {
        let (count, other) = (self.draw_many(), self.draw_many());
        let some = self.fields.random.below(count);
        let ways = [[count, 0], [0, count], [some, count - some], [count, other]];
        let [mut opened, mut failed] = self.fields.random.pick(&ways);
        while opened + failed > 0 {
            let is_opened = self.fields.random.below(opened + failed) < opened;
            let left = if is_opened { &mut opened } else { &mut failed };
            *left -= 1;
            self.add_empty_sealed(is_opened);
        }
    }

    /// About as many inner fields as a table holds, in one to three opened fields
    /// or in many. What is not opened between them has none.
    fn fill_with_many_inner(&mut self) {
        let total = self.draw_many();
        let parts = if self.fields.random.one_in(4) {
            self.fields.random.between(4, total)
        } else {
            self.fields.random.between(1, 3)
        };
        for part in 0..parts {
            let mut plaintext = Vec::new();
            for _ in 0..(total + part) / parts {
                plaintext.extend(self.fields.of_length(COOKIE, 1));
            }
            let field = self.fields.sealed_of(16, plaintext.len(), 0);
            self.add(field);
            self.seal_as(true, plaintext);
            if self.fields.random.one_in(20) {
                self.add_empty_sealed(false);
            }
        }
    }

    /// As long as a packet may be, and a little longer.
    fn fill_to_the_limit(&mut self) {
        self.fields.rarity = 6;
        let whole = self.fields.random.between(65_480, 65_540);
        if self.fields.random.one_in(3) {
            self.add_sealed(1);
        }
        while self.bytes.len() < whole {
            let left = whole - self.bytes.len();
            let length = left.min(self.fields.random.pick(&[65_536, 30_000])).max(4) - 4;
            let type_id = self
                .fields
                .random
                .pick(&[PLACEHOLDER, COOKIE, DRAFT, RESPONSE]);
            self.add_of(type_id, length);
        }
    }

    /// What may follow the fields: a MAC in V4, nothing in V5. In V4 the last field
    /// is read only if 24 bytes follow, or it is long itself.
    fn add_tail(&mut self) {
        let random = &mut *self.fields.random;
        let length = if self.fields.version == 4 {
            let any = random.below(29);
            let usual = random.pick(&[0, 0, 4, 20, 24, 25, any, any]);
            if self.counted && !random.one_in(4) {
                24
            } else {
                usual
            }
        } else {
            let any = random.below(6);
            random.pick(&[0, 0, 0, 0, 0, 0, 0, any])
        };
        let tail = random.bytes(length);
        self.add(tail);
    }
}
