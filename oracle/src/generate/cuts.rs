//! Lists of places: the cut of a packet, and wrong lists that a gateway might make.

use super::fields::SEALED;
use super::packets::Packet;
use super::random::Random;
use crate::format::{hex, list};

/// Where fields begin, and how many bytes they take.
#[derive(Clone, Default)]
pub struct Lists {
    offsets: Vec<u64>,
    lengths: Vec<u64>,
}

impl Lists {
    pub fn of(places: &[[u64; 2]]) -> Self {
        Self {
            offsets: places.iter().map(|place| place[0]).collect(),
            lengths: places.iter().map(|place| place[1]).collect(),
        }
    }

    /// The case that asks for a verdict on them.
    pub fn line(&self, packet: &Packet) -> String {
        let (version, header, bytes) = (packet.version, packet.header, hex(&packet.bytes));
        let [offsets, lengths] = [&self.offsets, &self.lengths].map(|numbers| {
            let words: Vec<String> = numbers.iter().map(u64::to_string).collect();
            list(&words)
        });
        format!("judge {version} {header} {bytes} {offsets} {lengths}")
    }
}

/// A field as its frame states it.
struct Field {
    type_id: u16,
    offset: usize,
    stated: usize,
    taken: usize,
}

/// The fields of a packet, up to its end or up to a fault.
pub struct Walk {
    fields: Vec<Field>,
    /// Where they end.
    end: usize,
    /// Whether there is no fault.
    pub is_whole: bool,
}

/// The number in the first two bytes.
fn two_bytes(bytes: &[u8]) -> usize {
    usize::from(bytes[0]) * 256 + usize::from(bytes[1])
}

/// The length that a field states, and what it takes by that.
fn lengths_of(field: &[u8]) -> [usize; 2] {
    let stated = field.get(2..4).map_or(0, two_bytes);
    [stated, stated.next_multiple_of(4)]
}

/// How many bytes may be left over.
fn most_left(version: u8) -> usize {
    if version == 4 { 24 } else { 0 }
}

impl Walk {
    pub fn over(packet: &Packet) -> Self {
        Self::by(packet.version, &packet.bytes, packet.header)
    }

    /// The fields of these bytes from an offset on, by the rules of a version.
    fn by(version: u8, bytes: &[u8], from: usize) -> Self {
        let mut walk = Self {
            fields: Vec::new(),
            end: from,
            is_whole: from <= bytes.len(),
        };
        while walk.is_whole && bytes.len() - walk.end > most_left(version) {
            let rest = &bytes[walk.end..];
            let [stated, taken] = lengths_of(rest);
            let is_odd = version == 4 && stated != taken;
            walk.is_whole = stated >= 4 && taken <= rest.len() && !is_odd;
            if walk.is_whole {
                walk.fields.push(Field {
                    type_id: u16::from_be_bytes([rest[0], rest[1]]),
                    offset: walk.end,
                    stated,
                    taken,
                });
                walk.end += taken;
            }
        }
        walk
    }

    /// The cut, if the walk met no fault.
    pub fn lists(&self) -> Lists {
        let place = |field: &Field| [field.offset as u64, field.taken as u64];
        let places: Vec<[u64; 2]> = self.fields.iter().map(place).collect();
        Lists::of(&places)
    }

    /// Puts random bytes into the messages and the padding of some fields, which
    /// must not matter.
    pub fn scramble(&self, random: &mut Random, bytes: &mut [u8]) {
        for field in &self.fields {
            if random.one_in(2) {
                let message = random.bytes(field.taken - 4);
                bytes[field.offset + 4..field.offset + field.taken].copy_from_slice(&message);
            }
        }
    }
}

/// The fields as they would be if none had a fault: one whose length is too small
/// takes four bytes, and the last one may take more than there are.
pub fn past_faults(packet: &Packet) -> Lists {
    let mut places = Vec::new();
    let mut at = packet.header;
    while packet.bytes.len().saturating_sub(at) > most_left(packet.version) {
        let [_, taken] = lengths_of(&packet.bytes[at..]);
        places.push([at, taken.max(4)].map(|number| number as u64));
        at += taken.max(4);
    }
    Lists::of(&places)
}

/// Makes lists of a packet and of its walk.
type Mistake = fn(&mut Random, &Packet, &Walk) -> Lists;

const MISTAKES: [Mistake; 14] = [
    one_changed,
    all_moved,
    not_rounded_up,
    one_missing,
    one_too_many,
    remainder_listed,
    first_few,
    none,
    of_unequal_length,
    huge,
    inside_a_sealed_field,
    of_the_other_version,
    joined_or_split,
    exchanged,
];

/// Lists with a mistake, often a single wrong number. For some packets they are the
/// right ones nonetheless.
pub fn mistaken(random: &mut Random, packet: &Packet, walk: &Walk) -> Lists {
    let any = random.pick(&MISTAKES);
    let mistake = random.pick(&[one_changed, any, any, any, any, any]);
    mistake(random, packet, walk)
}

/// One of the two lists.
fn either<'a>(random: &mut Random, lists: &'a mut Lists) -> &'a mut Vec<u64> {
    if random.one_in(2) {
        &mut lists.offsets
    } else {
        &mut lists.lengths
    }
}

/// One of the numbers; of empty lists, one of a pair that is added.
fn any_number<'a>(random: &mut Random, lists: &'a mut Lists) -> &'a mut u64 {
    if lists.offsets.is_empty() {
        *lists = Lists::of(&[[0, 4]]);
    }
    let last = lists.offsets.len() - 1;
    let any = random.below(last + 1);
    let place = random.pick(&[0, any, last]);
    &mut either(random, lists)[place]
}

fn one_changed(random: &mut Random, _: &Packet, walk: &Walk) -> Lists {
    let mut lists = walk.lists();
    let by = match random.below(5) {
        0 => 1,
        1 => 4,
        2 => random.below(70_000) as u64,
        3 => 1 << random.below(64),
        _ => random.next(),
    };
    let is_up = random.one_in(2);
    let number = any_number(random, &mut lists);
    *number = if is_up {
        number.wrapping_add(by)
    } else {
        number.wrapping_sub(by)
    };
    lists
}

/// The header's size is not added to the offsets, or all of them are too small by
/// another number.
fn all_moved(random: &mut Random, packet: &Packet, walk: &Walk) -> Lists {
    let mut lists = walk.lists();
    let by = random.pick(&[packet.header, packet.header, 1, 4, 24]) as u64;
    for offset in &mut lists.offsets {
        *offset = offset.wrapping_sub(by);
    }
    lists
}

/// The lengths are those that the fields state, and the offsets may be their sums.
fn not_rounded_up(random: &mut Random, packet: &Packet, walk: &Walk) -> Lists {
    let mut lists = walk.lists();
    lists.lengths = walk
        .fields
        .iter()
        .map(|field| field.stated as u64)
        .collect();
    if random.one_in(2) {
        let mut offset = packet.header as u64;
        for (place, length) in lists.lengths.iter().enumerate() {
            lists.offsets[place] = offset;
            offset += length;
        }
    }
    lists
}

/// The first pair is missing, one in the middle, or the last.
fn one_missing(random: &mut Random, _: &Packet, walk: &Walk) -> Lists {
    let mut lists = walk.lists();
    if let Some(last) = lists.offsets.len().checked_sub(1) {
        let place = random.pick(&[0, last / 2, last]);
        lists.offsets.remove(place);
        lists.lengths.remove(place);
    }
    lists
}

/// A pair behind the end, or one of the pairs twice.
fn one_too_many(random: &mut Random, packet: &Packet, walk: &Walk) -> Lists {
    let mut lists = walk.lists();
    let count = lists.offsets.len();
    let (place, pair) = if count == 0 || random.one_in(2) {
        let offset = random.pick(&[walk.end, packet.bytes.len()]);
        let length = random.pick(&[0, 1, 4, 8, 28]);
        (count, [offset as u64, length])
    } else {
        let place = random.below(count);
        (place, [lists.offsets[place], lists.lengths[place]])
    };
    lists.offsets.insert(place, pair[0]);
    lists.lengths.insert(place, pair[1]);
    lists
}

/// The bytes that are left over are listed as a field, or as a part of the last.
fn remainder_listed(random: &mut Random, packet: &Packet, walk: &Walk) -> Lists {
    let mut lists = walk.lists();
    let left = packet.bytes.len().saturating_sub(walk.end) as u64;
    match lists.lengths.last_mut() {
        Some(last) if random.one_in(4) => *last += left,
        _ => {
            lists.offsets.push(walk.end as u64);
            lists.lengths.push(left);
        }
    }
    lists
}

/// Only the first pairs: as many as a table has room for, or had once.
fn first_few(random: &mut Random, _: &Packet, walk: &Walk) -> Lists {
    let mut lists = walk.lists();
    let few = random.below(lists.offsets.len() + 1);
    let most = match lists.offsets.len() {
        129.. => random.pick(&[64, 128, 128, few]),
        65.. => random.pick(&[64, few]),
        _ => few,
    };
    lists.offsets.truncate(most);
    lists.lengths.truncate(most);
    lists
}

/// Two empty lists.
fn none(_: &mut Random, _: &Packet, _: &Walk) -> Lists {
    Lists::default()
}

/// One of the lists is longer than the other.
fn of_unequal_length(random: &mut Random, packet: &Packet, walk: &Walk) -> Lists {
    let mut lists = walk.lists();
    let end = packet.bytes.len() as u64;
    let more = random.pick(&[0, 4, walk.end as u64, end]);
    let numbers = either(random, &mut lists);
    if numbers.is_empty() || more == 0 {
        numbers.push(more);
    } else {
        numbers.pop();
    }
    lists
}

/// A number near 2^64, a length that added to its offset wraps around to a place in the
/// packet, or the right number with 2^16, 2^32 or 2^63 added.
fn huge(random: &mut Random, packet: &Packet, walk: &Walk) -> Lists {
    let mut lists = walk.lists();
    if lists.offsets.is_empty() {
        lists = Lists::of(&[[packet.header as u64, 4]]);
    }
    let place = random.below(lists.offsets.len());
    let offset = lists.offsets[place];
    let to = random.pick(&[0, packet.header as u64, offset, packet.bytes.len() as u64]);
    let near = u64::MAX - random.below(9) as u64;
    let more = 1 << random.pick(&[16, 32, 63]);
    match random.below(6) {
        0 => lists.offsets[place] = near,
        1 => lists.lengths[place] = near,
        2 => lists.offsets[place] = offset.wrapping_add(more),
        3 => lists.lengths[place] = lists.lengths[place].wrapping_add(more),
        _ => lists.lengths[place] = to.wrapping_sub(offset),
    }
    lists
}

/// The fields inside a sealed field, as if they were in the packet: after it or
/// in its place.
fn inside_a_sealed_field(random: &mut Random, packet: &Packet, walk: &Walk) -> Lists {
    let is_sealed = |field: &&Field| field.type_id == SEALED && field.taken >= 8;
    let sealed: Vec<&Field> = walk.fields.iter().filter(is_sealed).collect();
    if sealed.is_empty() {
        return one_changed(random, packet, walk);
    }
    let number = random.below(sealed.len());
    let at = sealed[number].offset;
    let inner = Lists::of(&places_inside(packet, number, at));
    let mut lists = walk.lists();
    let end = 1 + lists.offsets.partition_point(|offset| *offset < at as u64);
    let replaced = end - random.below(2)..end;
    lists.offsets.splice(replaced.clone(), inner.offsets);
    lists.lengths.splice(replaced, inner.lengths);
    lists
}

/// The places of the fields that the sealed field at an offset holds, where its
/// ciphertext is; of one that holds none, the places of its nonce and ciphertext.
fn places_inside(packet: &Packet, number: usize, at: usize) -> Vec<[u64; 2]> {
    let [nonce, ciphertext] = [at + 4, at + 6].map(|at| two_bytes(&packet.bytes[at..]));
    let nonce_at = at + 8;
    let ciphertext_at = nonce_at + nonce.next_multiple_of(4);
    // A plaintext is cut until nothing is left, as a V5 region is.
    let held = packet.sealings.get(number);
    let held = held.map(|sealing| Walk::by(5, &sealing.plaintext, 0).fields);
    let fields = held.unwrap_or_default();
    if fields.is_empty() {
        let places = [[nonce_at, nonce], [ciphertext_at, ciphertext]];
        return places
            .map(|place| place.map(|number| number as u64))
            .to_vec();
    }
    let place = |field: &Field| [(ciphertext_at + field.offset) as u64, field.taken as u64];
    fields.iter().map(place).collect()
}

/// The cut by the rules of the other version: in V5 without the last fields, or in
/// V4 with the remainder as fields.
fn of_the_other_version(_: &mut Random, packet: &Packet, _: &Walk) -> Lists {
    Walk::by(9 - packet.version, &packet.bytes, packet.header).lists()
}

/// Two fields as one, or one field as two.
fn joined_or_split(random: &mut Random, packet: &Packet, walk: &Walk) -> Lists {
    let mut lists = walk.lists();
    let count = lists.offsets.len();
    if count < 2 {
        return one_changed(random, packet, walk);
    }
    let place = random.below(count - 1);
    if random.one_in(2) {
        lists.offsets.remove(place + 1);
        lists.lengths[place] += lists.lengths.remove(place + 1);
    } else {
        let length = lists.lengths[place];
        lists.offsets.insert(place + 1, lists.offsets[place] + 4);
        lists.lengths.insert(place + 1, length - 4);
        lists.lengths[place] = 4;
    }
    lists
}

/// Two pairs in the wrong order, two lengths, or the two lists.
fn exchanged(random: &mut Random, _: &Packet, walk: &Walk) -> Lists {
    let mut lists = walk.lists();
    let count = lists.offsets.len();
    if count < 2 || random.one_in(4) {
        std::mem::swap(&mut lists.offsets, &mut lists.lengths);
        return lists;
    }
    let (one, other) = (random.below(count), random.below(count));
    lists.lengths.swap(one, other);
    if random.one_in(2) {
        lists.offsets.swap(one, other);
    }
    lists
}

#[cfg(test)]
mod tests {
    use super::super::packets::packet;
    use super::super::random::Random;
    use super::{MISTAKES, Walk};
    use crate::packet::answer::{Answer, answer};

    #[test]
    fn lists_of_a_walk_are_right_exactly_if_it_met_no_fault() {
        let mut random = Random::new(3);
        for _ in 0..2_000 {
            let packet = packet(&mut random);
            let walk = Walk::over(&packet);
            let case = walk.lists().line(&packet);
            match answer(case.as_bytes()).1 {
                Answer::Outside(_) => {}
                verdict => assert_eq!(verdict, Answer::Verdict(walk.is_whole), "{case}"),
            }
        }
    }

    #[test]
    fn contents_do_not_matter() {
        let mut random = Random::new(4);
        for _ in 0..500 {
            let mut packet = packet(&mut random);
            let walk = Walk::over(&packet);
            let lists = walk.lists();
            let before = answer(lists.line(&packet).as_bytes()).1;
            walk.scramble(&mut random, &mut packet.bytes);
            assert_eq!(answer(lists.line(&packet).as_bytes()).1, before);
        }
    }

    #[test]
    fn most_lists_of_each_mistake_are_wrong() {
        for (number, mistake) in MISTAKES.into_iter().enumerate() {
            let mut random = Random::new(5);
            let mut counts = [0, 0];
            while counts[0] + counts[1] < 300 {
                let packet = packet(&mut random);
                let walk = Walk::over(&packet);
                if walk.is_whole && walk.fields.len() > 1 {
                    let case = mistake(&mut random, &packet, &walk).line(&packet);
                    let is_wrong = answer(case.as_bytes()).1 == Answer::Verdict(false);
                    counts[usize::from(is_wrong)] += 1;
                }
            }
            assert!(counts[1] > 100, "mistake {number}: {counts:?}");
        }
    }
}
