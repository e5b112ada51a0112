//! Questions about what is particular to the New Order of an options market (document 02, request 4): its
//! dictionary and that of equities, each offered what the other has, byte 4, maturities, and what both
//! markets' members send alike.

use super::bitfields::sample::{Sample, CANCEL, MODIFY, NEW_ORDERS, OPTIONS, PURGE};
use super::book::{append, restart};
use super::listing;
use super::made::{both as booked, empty, DATE};
use super::parts::{measure, Parts, NO_DIRECTION};
use super::reading;
use super::session::sample::{Sample as Session, CLIENT_HEARTBEAT, LOGIN};
use super::sizes::into;
use super::text;
use super::values::{spoil, DAYS, NO_DAYS};
use super::without_repeats;
use super::writing::{self, both, pattern};
use crate::examples;
use crate::random::Random;
use crate::rules::kinds::Kind;
use crate::rules::layout;
use crate::rules::record::{BITFIELDS_PLACE, COUNT_PLACE, SESSION_SIZE, SIZE, SLOTS_PLACE};
use crate::rules::types::{MEMBER, NEW_ORDER as WIRE_TYPE, OPTIONS_MEMBER, OPTIONS_ORDER, VENUE};

/// The bitfield that options alone have, and the place of MaturityDate in the full layout.
const FOURTH: usize = 4;
const MATURITY_SLOT: usize = SLOTS_PLACE + 56;
/// Every direction, and numbers that are none.
const DIRECTIONS: [u8; 5] = [MEMBER, VENUE, OPTIONS_MEMBER, NO_DIRECTION, 255];

pub fn ask(lines: &mut Vec<String>) {
    let mut random = Random::new(26);
    let mut asked = Vec::new();
    from_the_documents(&mut asked);
    other_dictionary(&mut asked, &mut random);
    fourth(&mut asked, &mut random);
    maturities(&mut asked, &mut random);
    bad_with_others(&mut asked, &mut random);
    slots(&mut asked, &mut random);
    other_market(&mut asked, &mut random);
    both_members(&mut asked, &mut random);
    books(&mut asked, &mut random);
    days(&mut asked, &mut random);
    lines.extend(without_repeats(asked));
}

/// The direction of the other market's member.
fn other(direction: u8) -> u8 {
    match direction {
        MEMBER => OPTIONS_MEMBER,
        _ => MEMBER,
    }
}

/// 002's New Order and 000's in every direction, with types that they do not have, with other
/// maturities, and with bits of one market alone.
fn from_the_documents(lines: &mut Vec<String>) {
    let mut read = |direction: u8, message: &[u8]| lines.push(reading::line(direction, message));
    let (options, equities) = (examples::options_order(), examples::new_order());
    for example in [&options, &equities] {
        for direction in DIRECTIONS {
            for type_byte in [WIRE_TYPE, OPTIONS_ORDER] {
                let mut message = example.clone();
                message[4] = type_byte;
                read(direction, &message);
            }
        }
    }
    for maturity in [20_110_229_u32, 0, 20_240_229, 21_000_101] {
        let mut message = options.clone();
        message[77..81].copy_from_slice(&maturity.to_le_bytes());
        read(OPTIONS_MEMBER, &message);
    }
    let mut suffixed = [&equities[..55], &[0; 8], &equities[55..]].concat();
    suffixed[37] = 0xC3;
    measure(&mut suffixed);
    for direction in DIRECTIONS {
        read(direction, &suffixed);
    }
    for bit in (0..8).map(|shift| 1 << shift) {
        let mut sixth = [&options[..40], &[0, bit], &options[40..]].concat();
        sixth[35] = 6;
        measure(&mut sixth);
        read(OPTIONS_MEMBER, &sixth);
    }
}

/// Each bit alone, with what is required besides and with fields that fit it, in the direction of the
/// other market; and the records of a market with each bit that the other alone has.
fn other_dictionary(lines: &mut Vec<String>, random: &mut Random) {
    for which in NEW_ORDERS {
        let layout = &layout::ALL[which];
        for byte in 1..=layout.most {
            for bit in (0..8).map(|shift| 1 << shift) {
                let mut sample = Sample::least(random, which);
                sample.set_bit(byte, bit);
                let direction = other(layout.direction());
                lines.push(reading::line(direction, &sample.bytes()));
            }
        }
        let strangers = NEW_ORDERS.into_iter().find(|other| *other != which);
        for field in strangers.map_or(&[][..], |other| layout::ALL[other].listed) {
            if layout.listed_bits(field.byte) & field.bit == 0 {
                let mut sample = Sample::least(random, which);
                sample.set_bit(field.byte, field.bit);
                both(lines, random, &sample);
            }
        }
    }
}

/// Every value of byte 4, with the fields that it selects; and every choice of its listed bits, alone and
/// after all others, read and written.
fn fourth(lines: &mut Vec<String>, random: &mut Random) {
    let listed = layout::ALL[OPTIONS].listed_bits(FOURTH);
    for bits in 0..=255 {
        let mut least = Sample::least(random, OPTIONS);
        least.lengthen(FOURTH);
        least.bitfields[FOURTH - 1] = bits;
        if bits & !listed != 0 {
            lines.push(reading::line(OPTIONS_MEMBER, &least.bytes()));
            continue;
        }
        both(lines, random, &least);
        lines.push(reading::line(MEMBER, &least.bytes()));
        let mut longest = Sample::least(random, OPTIONS);
        longest.select_all();
        longest.bitfields[FOURTH - 1] = bits;
        both(lines, random, &longest);
    }
}

/// An order whose maturity is a number, perhaps none.
fn maturing(random: &mut Random, number: u32) -> Sample {
    let mut sample = Sample::least(random, OPTIONS);
    sample.select("MaturityDate");
    *sample.value("MaturityDate") = number.to_le_bytes().to_vec();
    sample
}

/// Days and numbers that are none, read and written.
fn maturities(lines: &mut Vec<String>, random: &mut Random) {
    for number in DAYS.into_iter().chain(NO_DAYS) {
        let sample = maturing(random, number);
        both(lines, random, &sample);
    }
}

/// A maturity that is no day before and after another bad field, and with each fault that is told before
/// it.
fn bad_with_others(lines: &mut Vec<String>, random: &mut Random) {
    for name in [
        "ClOrdID",
        "Side",
        "OrderQty",
        "Account",
        "PutOrCall",
        "OpenClose",
    ] {
        let mut sample = maturing(random, 20_110_229);
        match name {
            "ClOrdID" | "Side" => sample.value(name)[0] = b' ',
            "OrderQty" => sample.value(name).fill(0),
            _ => {
                sample.select(name);
                let kind = sample.field(name).kind;
                spoil(random, kind, sample.value(name));
            }
        }
        both(lines, random, &sample);
    }
    let mut faulty = Vec::new();
    let mut with = |random: &mut Random, change: &dyn Fn(&mut Sample)| {
        let mut sample = maturing(random, 0);
        change(&mut sample);
        faulty.push(sample);
    };
    with(random, &|sample| sample.unit = 1);
    with(random, &|sample| sample.lengthen(11));
    with(random, &|sample| sample.set_bit(FOURTH, 8));
    with(random, &|sample| sample.set_bit(10, 2));
    with(random, &|sample| sample.unselect("Symbol"));
    with(random, &|sample| sample.unselect("Price"));
    with(random, &|sample| sample.lengthen(10));
    for sample in faulty {
        both(lines, random, &sample);
    }
    let message = maturing(random, 0).bytes();
    for size in [message.len() - 4, message.len() - 1, message.len() + 1] {
        let mut other = message.clone();
        other.resize(size, 0);
        measure(&mut other);
        lines.push(reading::line(OPTIONS_MEMBER, &other));
    }
}

/// A maturity that is not selected does not speak: it is 12, whatever it is, and 0 is taken. The same
/// with its bit past the count.
fn slots(lines: &mut Vec<String>, random: &mut Random) {
    for (number, past) in [
        (20_110_319_u32, false),
        (20_110_319, true),
        (20_110_229, false),
        (20_110_229, true),
        (0, false),
        (0, true),
    ] {
        let mut sample = maturing(random, number);
        sample.select("StrikePrice");
        let mut record = sample.record();
        if past {
            record[COUNT_PLACE] = FOURTH as u8 - 1;
        } else {
            record[BITFIELDS_PLACE + FOURTH - 1] = 2;
        }
        lines.push(writing::line(OPTIONS_MEMBER, &record, &[5; 3]));
        record[MATURITY_SLOT..SIZE].fill(0);
        record[BITFIELDS_PLACE + FOURTH - 1] = 0;
        let buffer = pattern(random, sample.bytes().len());
        lines.push(writing::line(OPTIONS_MEMBER, &record, &buffer));
    }
    // Each unused place after the last slot.
    for place in [
        SLOTS_PLACE + 70,
        SLOTS_PLACE + 71,
        SLOTS_PLACE + 153,
        SIZE - 1,
    ] {
        let mut sample = maturing(random, 20_110_319);
        sample.select_all();
        let mut record = sample.record();
        record[place] = 1;
        lines.push(writing::line(OPTIONS_MEMBER, &record, &[5; 3]));
    }
}

/// Records and messages of one market offered to the other, of every size, and records with the other's
/// type; read into buffers.
fn other_market(lines: &mut Vec<String>, random: &mut Random) {
    for which in NEW_ORDERS {
        let own = layout::ALL[which].direction();
        for sample in [Sample::least(random, which), Sample::any(random, which)] {
            let record = sample.record();
            for direction in DIRECTIONS {
                for size in [0, 1, SIZE - 1] {
                    lines.push(writing::line(direction, &record[..size], &[6; 2]));
                }
                let buffer = pattern(random, sample.bytes().len());
                lines.push(writing::line(direction, &record, &buffer));
                lines.push(reading::line(direction, &sample.bytes()));
                let size = [0, SIZE - 1, SIZE, SESSION_SIZE][random.between(0, 3)];
                lines.push(into(random, direction, &sample.bytes(), size));
            }
            for direction in [own, other(own)] {
                let mut taken = record.clone();
                taken[0] = match which {
                    OPTIONS => WIRE_TYPE,
                    _ => OPTIONS_ORDER,
                };
                let buffer = pattern(random, sample.bytes().len());
                lines.push(writing::line(direction, &taken, &buffer));
            }
        }
    }
}

/// What both markets' members send alike, in the direction of options: good, damaged, and records.
fn both_members(lines: &mut Vec<String>, random: &mut Random) {
    for example in [
        examples::cancel(),
        examples::cancel_without_bitfields(),
        examples::cancel_of_another_bit(),
        examples::cancel_of_three_bitfields(),
        examples::modify(),
        examples::purge_by_ids_with_its_length(),
        examples::purge_by_symbol_with_its_length(),
        examples::login(),
        examples::options_login(),
        examples::client_heartbeat(),
        examples::logout_request(),
        examples::acknowledgment(),
        examples::login_response_of_the_notes(),
    ] {
        lines.push(reading::line(OPTIONS_MEMBER, &example));
    }
    for which in [CANCEL, MODIFY, PURGE] {
        alike::<Sample>(lines, random, which);
    }
    for which in [LOGIN, CLIENT_HEARTBEAT] {
        alike::<Session>(lines, random, which);
    }
}

fn alike<P: Parts>(lines: &mut Vec<String>, random: &mut Random, which: usize) {
    for round in 0..4 {
        let sample = P::any(random, which);
        lines.push(reading::line(OPTIONS_MEMBER, &sample.bytes()));
        let buffer = pattern(random, sample.bytes().len());
        let record = sample.record();
        lines.push(writing::line(OPTIONS_MEMBER, &record, &buffer));
        for _ in 0..2 {
            let (_, damaged) = sample.damaged(random);
            lines.push(reading::line(OPTIONS_MEMBER, &damaged));
        }
        let (_, damaged, buffer) = sample.damaged_record(random);
        lines.push(writing::line(OPTIONS_MEMBER, &damaged, &buffer));
        let short = &record[..record.len() - 1 - round];
        lines.push(writing::line(OPTIONS_MEMBER, short, &[]));
    }
}

/// A book takes no order of either market, and no message of the record's type.
fn books(lines: &mut Vec<String>, random: &mut Random) {
    for book in [empty(), booked(random)] {
        for type_byte in [WIRE_TYPE, OPTIONS_ORDER] {
            let mut order = examples::options_order();
            order[4] = type_byte;
            lines.push(append(DATE, &book.bytes, 100, &order));
            let after = [&book.bytes[..], &order].concat();
            lines.push(restart(DATE, &after));
            lines.push(listing::line(&after));
        }
    }
}

/// `kind D` and `filled D`: days and numbers that are none, about the ends of years, months and days;
/// and other numbers of bytes.
fn days(lines: &mut Vec<String>, random: &mut Random) {
    let mut number = |number: u32| text::add(lines, Kind::Day, &number.to_le_bytes());
    DAYS.into_iter().chain(NO_DAYS).for_each(&mut number);
    (0..100).for_each(|day| number(20_240_200 + day));
    (0..100).for_each(|month| number(20_230_015 + 100 * month));
    (1_960..2_110).for_each(|year| number(10_000 * year + 229));
    for year in [1_970, 2_000, 2_023, 2_024, 2_099] {
        for month in 1..=12 {
            (28..=32).for_each(|day| number(10_000 * year + 100 * month + day));
        }
    }
    (0..32).for_each(|shift| number(20_110_319 ^ 1 << shift));
    for _ in 0..40 {
        number(random.number());
    }
    for day in DAYS {
        for size in (0..=9).filter(|size| *size != 4) {
            let mut field = day.to_le_bytes().to_vec();
            field.resize(size, 0);
            text::add(lines, Kind::Day, &field);
            if size > 4 {
                // A day that comes last, and one that other bytes follow.
                field.rotate_right(size - 4);
                text::add(lines, Kind::Day, &field);
                let after = random.bytes(size - 4);
                let field = [&day.to_le_bytes()[..], &after].concat();
                text::add(lines, Kind::Day, &field);
            }
        }
    }
    text::add(lines, Kind::Day, b"20110319");
    text::add(lines, Kind::Day, &0x2011_0319_u32.to_le_bytes());
}

#[cfg(test)]
mod tests {
    use super::*;
    use crate::ask;
    use crate::questions::judged;

    fn answers(lines: &[String]) -> Vec<String> {
        let answers = lines.iter().map(|line| ask::answer(line.as_bytes()));
        let first = |answer: String| answer.split(' ').next().unwrap_or_default().to_string();
        answers.map(first).collect()
    }

    #[test]
    fn worked_facts() {
        let answers = answers(&judged::asked_by(from_the_documents));
        let expected = [
            // 002's and 000's in the directions 0, 1, 2, 3 and 255, each time also with the record's type.
            "8@39 4 4 4 0 4 4 4 4 4",
            "0 4 4 4 0 4 4 4 4 4",
            // Maturities; SymbolSfx in each direction; each bit of byte 6.
            "10@77 10@77 0 10@77",
            "0 4 8@37 4 4",
            "8@41 8@41 8@41 8@41 8@41 8@41 8@41 8@41",
        ];
        assert_eq!(answers.join(" "), expected.join(" "));
    }

    /// What one dictionary alone lists is 8 to the other, and what both list is taken by both.
    #[test]
    fn bits_of_the_other_market() {
        let mut lines = Vec::new();
        other_dictionary(&mut lines, &mut Random::new(1));
        let count = |start: &str, number: &str| {
            let lines: Vec<String> = lines
                .iter()
                .filter(|line| line.starts_with(start))
                .cloned()
                .collect();
            let answers = answers(&lines);
            let same = |answer: &&String| ask::number_of(answer) == number;
            answers.iter().filter(same).count()
        };
        // Of the 80 bits 12 are in both, 4 in options alone, 8 in equities alone, 56 in neither. A bit of the
        // direction's market alone wants a field that the message does not have. The others are 8, as are
        // those of the other market alone in a market's own messages and records.
        for (market, only, strangers) in [("2", 4, 8), ("0", 8, 4)] {
            let read = format!("read {}", market);
            assert_eq!((count(&read, "0"), count(&read, "6")), (12, only));
            assert_eq!(count(&read, "8"), 56 + strangers + strangers);
            assert_eq!(count(&format!("write {}", market), "8"), strangers);
        }
    }

    #[test]
    fn every_value_of_byte_4() {
        let mut lines = Vec::new();
        fourth(&mut lines, &mut Random::new(1));
        let seen = answers(&lines);
        let count = |number: &str| seen.iter().filter(|answer| *answer == number).count();
        // 16 are taken, in four forms; with one of the four bits they are 8 to the other market.
        assert_eq!(count("0"), 16 * 4 + 1);
        assert_eq!(count("8@39"), 240 + 15);
        assert_eq!(seen.len(), 240 + 16 * 5);
    }

    /// Each number comes that these questions are about, read and written.
    #[test]
    fn numbers() {
        let seen = judged::numbers_by_call(ask);
        for expected in [
            "read 0", "read 4", "read 5", "read 6", "read 7", "read 8", "read 9", "read 10",
            "write 0", "write 4", "write 5", "write 7", "write 8", "write 9", "write 10",
            "write 12", "write 13", "kind 0", "kind 1", "filled 0", "filled 1",
        ] {
            assert!(seen.contains_key(expected), "{}", expected);
        }
        assert!(!seen.keys().any(|key| key.ends_with('?')));
    }
}
