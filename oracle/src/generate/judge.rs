//! Cases for the judge of lists.

use super::cuts::{Lists, Walk, mistaken, past_faults};
use super::fields::{COOKIE, Fields, SEALED};
use super::packets::{Packet, packet};
use super::random::Random;
use super::regions;
use crate::packet::answer::domain::LONGEST;
use std::io::{Result, Write};

pub fn judge(random: &mut Random) -> String {
    let mut packet = any_packet(random);
    let walk = Walk::over(&packet);
    if random.one_in(6) {
        walk.scramble(random, &mut packet.bytes);
    }
    let lists = if random.below(5) < 2 {
        walk.lists()
    } else if !walk.is_whole && random.one_in(2) {
        past_faults(&packet)
    } else {
        mistaken(random, &packet, &walk)
    };
    lists.line(&packet)
}

/// A packet, mostly one that has a cut.
fn any_packet(random: &mut Random) -> Packet {
    if random.one_in(40) {
        return with_many_fields(random);
    }
    loop {
        let packet = packet(random);
        if Walk::over(&packet).is_whole || random.one_in(3) {
            return packet;
        }
    }
}

/// More fields than a table has room for, plain ones and sealed ones, with any
/// contents.
fn with_many_fields(random: &mut Random) -> Packet {
    let version = random.version();
    let header = random.pick(&[0, 48]);
    let mut bytes = random.bytes(header);
    let count = random.between(129, 700);
    let tail = if version == 4 { random.below(25) } else { 0 };
    let mut fields = Fields {
        random,
        version,
        rarity: 3000,
    };
    for _ in 0..count {
        let type_id = fields.random.pick(&[COOKIE, SEALED]);
        let length = fields.random.below(13);
        bytes.extend(fields.of_length(type_id, length));
    }
    bytes.extend(random.bytes(tail));
    Packet {
        version,
        header,
        bytes,
        sealings: Vec::new(),
    }
}

/// One field and one pair, every V4 region near the 24 bytes that may be left over,
/// up to three fields and every list of up to three pairs, the packets of the survey
/// with their own cut, and the longest lists.
pub fn all_judgements(random: &mut Random, output: &mut dyn Write) -> Result<()> {
    single_pairs(output)?;
    near_the_remainder(output)?;
    several_pairs(output)?;
    packets_of_the_survey(random, output)?;
    longest_lists(output)
}

fn region(version: u8, header: usize, bytes: Vec<u8>) -> Packet {
    Packet {
        version,
        header,
        bytes,
        sealings: Vec::new(),
    }
}

/// A field that states a length, behind a header, of which so many bytes are present.
fn field(version: u8, header: usize, stated: u8, present: usize) -> Packet {
    let mut bytes = vec![0xEE; header];
    bytes.extend([0x01, 0x04, 0, stated]);
    bytes.resize(header + present.max(4), 0);
    bytes.truncate(header + present);
    region(version, header, bytes)
}

/// In V5 every stated length up to 12 over every number of bytes up to 12, with the
/// empty list and with every length up to 13 at three offsets.
fn single_pairs(output: &mut dyn Write) -> Result<()> {
    for header in [0, 3] {
        for stated in 0..=12 {
            for present in 0..=12 {
                let packet = field(5, header, stated, present);
                writeln!(output, "{}", Lists::default().line(&packet))?;
                for offset in [0, 3, 4] {
                    for length in 0..=13 {
                        let lists = Lists::of(&[[offset, length]]);
                        writeln!(output, "{}", lists.line(&packet))?;
                    }
                }
            }
        }
    }
    Ok(())
}

/// The same in V4, for regions and fields of about 24, 28 and 48 bytes.
fn near_the_remainder(output: &mut dyn Write) -> Result<()> {
    let lengths = [0, 4, 8, 12, 20, 24, 25, 28, 29, 32];
    for present in [0, 3, 4, 23, 24, 25, 26, 27, 28, 29, 32, 48, 49, 52, 53] {
        for stated in (0..=12).chain([20]).chain(23..=29).chain([32]) {
            let packet = field(4, 0, stated, present);
            writeln!(output, "{}", Lists::default().line(&packet))?;
            for offset in [0, 4] {
                for length in lengths {
                    let lists = Lists::of(&[[offset, length]]);
                    writeln!(output, "{}", lists.line(&packet))?;
                }
            }
        }
    }
    Ok(())
}

/// Up to three words that state a length of 3, 4, 6 or 8 each, with every list of up
/// to three pairs at 0, 4 or 8 that take 4 or 8 bytes. In V4 24 bytes follow, and
/// there are up to two pairs.
fn several_pairs(output: &mut dyn Write) -> Result<()> {
    let words = [3, 4, 6, 8].map(|stated| [0x01, 0x04, 0, stated]);
    let places = [0, 4, 8].map(|offset| [4, 8].map(|length| [offset, length]));
    for words in up_to_three(&words) {
        let mut bytes = words.concat();
        let packet = region(5, 0, bytes.clone());
        bytes.extend([0x5A; 24]);
        let older = region(4, 0, bytes);
        for pairs in up_to_three(&places.concat()) {
            let lists = Lists::of(&pairs);
            writeln!(output, "{}", lists.line(&packet))?;
            if pairs.len() < 3 {
                writeln!(output, "{}", lists.line(&older))?;
            }
        }
    }
    Ok(())
}

/// All sequences of up to three of these.
fn up_to_three<T: Copy>(letters: &[T]) -> Vec<Vec<T>> {
    let mut all: Vec<Vec<T>> = vec![Vec::new()];
    let mut from = 0;
    for _ in 0..3 {
        let to = all.len();
        for place in from..to {
            for letter in letters {
                let mut longer = all[place].clone();
                longer.push(*letter);
                all.push(longer);
            }
        }
        from = to;
    }
    all
}

/// The packets of the exhaustive surveys: each with its cut, or with its fields up to
/// the fault, and some with a mistake too.
fn packets_of_the_survey(random: &mut Random, output: &mut dyn Write) -> Result<()> {
    let mut write = |packet: &Packet| {
        let lists = Walk::over(packet).lists();
        writeln!(output, "{}", lists.line(packet))
    };
    regions::sequences(&regions::letters_but_for_results(), &mut write)?;
    regions::inner_lengths(&mut write)?;
    let mut packets = Vec::new();
    let mut keep = |packet: &Packet| {
        packets.push(region(packet.version, packet.header, packet.bytes.clone()));
        Ok(())
    };
    regions::table_limits(&mut keep)?;
    regions::sizes(&mut keep)?;
    regions::damaged(random, &mut keep)?;
    for packet in packets {
        let walk = Walk::over(&packet);
        writeln!(output, "{}", walk.lists().line(&packet))?;
        let mistaken = mistaken(random, &packet, &walk);
        writeln!(output, "{}", mistaken.line(&packet))?;
    }
    Ok(())
}

/// As many fields as a packet has room for, and lists that are wrong at their end;
/// and a packet that is too long by a byte, with the list that is right but for that.
fn longest_lists(output: &mut dyn Write) -> Result<()> {
    for (version, header, left) in [(5, 0, 0), (5, 3, 0), (4, 0, 24), (4, 2, 21)] {
        let count = (LONGEST - header - left) / 4;
        let packet = of_empty_fields(version, header, count, left);
        let places: Vec<[u64; 2]> = (0..=count).map(|i| [(header + 4 * i) as u64, 4]).collect();
        let mut longer = places[..count].to_vec();
        longer[count - 1][1] = 8;
        for places in [&places[..count], &places[..count - 1], &longer, &places] {
            writeln!(output, "{}", Lists::of(places).line(&packet))?;
        }
    }
    for (version, left) in [(5, 0), (4, 24)] {
        let packet = of_empty_fields(version, 0, (LONGEST + 1 - left) / 4, left);
        writeln!(output, "{}", Walk::over(&packet).lists().line(&packet))?;
    }
    Ok(())
}

/// A packet of so many fields without message, with bytes left over behind them.
fn of_empty_fields(version: u8, header: usize, count: usize, left: usize) -> Packet {
    let mut bytes = vec![0xEE; header];
    bytes.extend([0x01, 0x04, 0, 4].repeat(count));
    bytes.extend(vec![0x5A; left]);
    region(version, header, bytes)
}

#[cfg(test)]
mod tests {
    use super::{judge, up_to_three};
    use crate::generate::random::Random;
    use crate::packet::answer::{Answer, answer};

    /// The drawn cases that are right, without their names.
    fn right_cases(count: usize) -> Vec<String> {
        let mut random = Random::new(1);
        let drawn = (0..count).map(|_| judge(&mut random));
        let is_right = |case: &String| answer(case.as_bytes()).1 == Answer::Verdict(true);
        let right = drawn.filter(is_right);
        right
            .map(|case| case["judge ".len()..].to_string())
            .collect()
    }

    #[test]
    fn more_than_a_third_is_right_whatever_the_fields_are() {
        let right = right_cases(3_000);
        assert!(right.len() > 1_000 && right.len() < 2_000);
        let many = |case: &&String| case.split(' ').next_back().unwrap().split(',').count() > 128;
        assert!(right.iter().filter(many).count() > 50);
        // Version, header and packet of the same case.
        let refused = |name: &str, rest: &str, number: &str| {
            let is_refused = |case: &&String| {
                let words: Vec<&str> = case.split(' ').take(3).collect();
                let case = format!("{name} {}{rest}", words.join(" "));
                answer(case.as_bytes()).1.to_string().starts_with(number)
            };
            right.iter().filter(is_refused).count()
        };
        assert!(refused("survey", "", "1 ") > 20);
        assert!(refused("read", " - -", "2 ") > 5);
        assert!(refused("read", " - -", "4 ") > 5);
    }

    #[test]
    fn sequences_are_all_there() {
        assert_eq!(up_to_three(&[1, 2]).len(), 1 + 2 + 4 + 8);
        assert_eq!(up_to_three(&[1, 2])[4], [1, 2]);
    }
}
