//! Questions about what is particular to Purge Orders (document 02, request 1): its ids between the
//! bitfields and the fields, what MassCancelInst asks for, and what does not go together.

use super::bitfields::late::instruct;
use super::bitfields::sample::{Sample, PURGE};
use super::parts::{measure, Parts};
use super::reading;
use super::sizes::into;
use super::without_repeats;
use super::writing::{self, both};
use crate::examples;
use crate::random::Random;
use crate::rules::layout;
use crate::rules::record::{COUNT_PLACE, FIXED_PLACE, SESSION_SIZE, SIZE, SLOTS_PLACE};
use crate::rules::types::MEMBER;

/// The most ids.
const MOST: usize = 10;
/// RiskGroupIDCnt in a record, and its first id.
const ID_COUNT_PLACE: usize = FIXED_PLACE + 1;
const IDS_PLACE: usize = ID_COUNT_PLACE + 1;

pub fn ask(lines: &mut Vec<String>) {
    let mut random = Random::new(25);
    let mut asked = Vec::new();
    from_the_documents(&mut asked);
    instructions(&mut asked);
    subsets(&mut asked, &mut random);
    cross(&mut asked, &mut random);
    characters(&mut asked, &mut random);
    matching_units(&mut asked, &mut random);
    id_counts(&mut asked, &mut random);
    cuts(&mut asked, &mut random);
    places(&mut asked, &mut random);
    records(&mut asked, &mut random);
    slots(&mut asked, &mut random);
    buffers(&mut asked, &mut random);
    lines.extend(without_repeats(asked));
}

fn read(lines: &mut Vec<String>, message: &[u8]) {
    lines.push(reading::line(MEMBER, message));
}

/// Tables 31 and 32 as they are printed, with the bytes that their lengths say, and mended; with eleven
/// ids for two; and with a MatchingUnit beside the second's Symbol.
fn from_the_documents(lines: &mut Vec<String>) {
    for (printed, mended) in [
        (
            examples::purge_by_ids(),
            examples::purge_by_ids_with_its_length(),
        ),
        (
            examples::purge_by_symbol(),
            examples::purge_by_symbol_with_its_length(),
        ),
    ] {
        read(lines, &printed);
        let mut sized = printed.clone();
        sized.resize(usize::from(printed[2]) + 2, 0);
        read(lines, &sized);
        read(lines, &mended);
    }
    let mended = examples::purge_by_ids_with_its_length();
    for count in [11, 255] {
        let ids = vec![0xBE; 2 * usize::from(count)];
        let mut message = [&mended[..13], &[count], &ids, &mended[18..]].concat();
        measure(&mut message);
        read(lines, &message);
        let mut message = mended.clone();
        message[13] = count;
        read(lines, &message);
    }
    for unit in [0, 1, 3, 255] {
        let mut message = examples::purge_by_symbol_with_its_length();
        message[13] = 0x81;
        message.push(unit);
        measure(&mut message);
        read(lines, &message);
    }
}

/// MassCancelInst alone; then with Symbol and MatchingUnit, and with MatchingUnit.
fn instructions(lines: &mut Vec<String>) {
    for text in [
        &b"A"[..],
        b"",
        b"F",
        b"AS",
        b"AML",
        b"ASL",
        b"FML",
        b"ABL",
        b"X",
        b"f",
        b"\0F",
        b"\0\0L",
        b"A\0L",
        b"AM\0L",
        b"\x7F",
        b"A\x7FL",
    ] {
        let mut field = text.to_vec();
        field.resize(16, 0);
        for tail in [
            [&[0, 1, 4, 0][..], &field].concat(),
            [&[0, 2, 4, 0x81, 0], &field[..], b"ABC\0\0\0\0\0", &[0]].concat(),
            [&[0, 2, 4, 0x81, 0], &field[..], b"ABC\0\0\0\0\0", &[3]].concat(),
            [&[0, 2, 4, 0x80, 0], &field[..], &[3]].concat(),
        ] {
            let header = [0xBA, 0xBA, 0, 0, 0x47, 0, 0x64, 0, 0, 0];
            let mut message = [&header[..], &tail].concat();
            measure(&mut message);
            read(lines, &message);
        }
    }
}

/// Every choice of listed bits: where MassCancelInst is selected with each number of ids and one more,
/// else with none and one. Some are also written.
fn subsets(lines: &mut Vec<String>, random: &mut Random) {
    let layout = &layout::ALL[PURGE];
    for bits in 0..=u16::MAX {
        let [first, second] = bits.to_le_bytes();
        if first & !layout.listed_bits(1) != 0 || second & !layout.listed_bits(2) != 0 {
            continue;
        }
        let mut sample = Sample::least(random, PURGE);
        sample.clear();
        sample.set_bit(1, first);
        sample.set_bit(2, second);
        if random.below(2) == 0 {
            *sample.value("MatchingUnit") = vec![0];
        }
        let most = match sample.selects("MassCancelInst") {
            true => MOST + 1,
            false => 1,
        };
        for count in 0..=most {
            sample.put_ids(random, count);
            read(lines, &sample.bytes());
        }
        for count in [0, most - 1, most] {
            if random.below(4) == 0 {
                sample.put_ids(random, count);
                writing::alone(lines, random, &sample);
            }
        }
        if second == 0 {
            sample.lengthen(2);
            sample.bitfields.pop();
            sample.count = 1;
            both(lines, random, &sample);
        }
    }
}

/// The characters of MassCancelInst with each choice of the four fields that they and 23 look at, and
/// two values of MatchingUnit: read and written.
fn cross(lines: &mut Vec<String>, random: &mut Random) {
    for first in b"AFXf" {
        for second in b"MSBN\0" {
            for third in b"NL\0" {
                for choice in 0..16 {
                    for unit in [0, 3] {
                        let mut sample = Sample::least(random, PURGE);
                        sample.put_ids(random, choice % 2);
                        for (shift, name) in FOUR.into_iter().enumerate() {
                            if choice >> shift & 1 != 0 {
                                sample.select(name);
                            }
                        }
                        if unit == 0 && !sample.selects("MatchingUnit") {
                            continue;
                        }
                        let text = sample.value("MassCancelInst");
                        text.fill(0);
                        text[..3].copy_from_slice(&[*first, *second, *third]);
                        *sample.value("MatchingUnit") = vec![unit];
                        both(lines, random, &sample);
                    }
                }
            }
        }
    }
}

const FOUR: [&str; 4] = ["ClearingFirm", "MassCancelID", "Symbol", "MatchingUnit"];

/// The characters that mean something, and those beside them, at each place where they might.
fn characters(lines: &mut Vec<String>, random: &mut Random) {
    for place in [0, 1, 2, 3, 4, 15] {
        for character in b"EFGfRSTsABCbKLMlNn \x06\x13\x02\x0C" {
            let mut sample = Sample::least(random, PURGE);
            let text = sample.value("MassCancelInst");
            text.copy_from_slice(b"AMNAMNAMNAMNAMNA");
            text[place] = *character;
            read(lines, &sample.bytes());
            instruct(&mut sample, b"FSL");
            sample.select("ClearingFirm");
            sample.select("MassCancelID");
            sample.value("MassCancelInst")[place] = *character;
            read(lines, &sample.bytes());
        }
    }
    // Selected is enough: they may be blank.
    for text in [b"FSL", b"FBN", b"FML", b"ASN"] {
        let mut sample = Sample::least(random, PURGE);
        sample.select("ClearingFirm");
        sample.select("MassCancelID");
        sample.value("ClearingFirm").fill(0);
        sample.value("MassCancelID").fill(0);
        instruct(&mut sample, text);
        both(lines, random, &sample);
    }
}

/// MatchingUnit alone, with Symbol, with a blank one, and with SymbolSfx.
fn matching_units(lines: &mut Vec<String>, random: &mut Random) {
    for unit in [0, 1, 2, 3, 31, 32, 33, 48, 64, 127, 128, 254, 255] {
        for (names, blank) in [
            (&["MatchingUnit"][..], false),
            (&["MatchingUnit", "Symbol"], false),
            (&["MatchingUnit", "Symbol"], true),
            (&["MatchingUnit", "SymbolSfx"], false),
            (&["MatchingUnit", "SymbolSfx", "Symbol"], true),
        ] {
            let mut sample = Sample::least(random, PURGE);
            names.iter().for_each(|name| sample.select(name));
            *sample.value("MatchingUnit") = vec![unit];
            if blank {
                sample.value("Symbol").fill(0);
            }
            read(lines, &sample.bytes());
            if unit < 4 {
                writing::alone(lines, random, &sample);
            }
        }
    }
}

/// RiskGroupIDCnt over as many ids, and over other numbers of them; ids alike, and at the ends of what
/// two bytes hold.
fn id_counts(lines: &mut Vec<String>, random: &mut Random) {
    for ids in [0, 1, 2, MOST, MOST + 1] {
        for count in (0..=20).chain([32, 44, 45, 63, 64, 127, 128, 129, 254, 255]) {
            let mut sample = Sample::least(random, PURGE);
            sample.put_ids(random, ids);
            sample.middle[0] = count;
            read(lines, &sample.bytes());
        }
    }
    for count in [11, 12, 20, 44, 45, 127, 128, 255] {
        let mut sample = Sample::any(random, PURGE);
        sample.put_ids(random, count);
        read(lines, &sample.bytes());
        // A bad field after it, one that is missing, and a conflict.
        sample.select("ClearingFirm");
        sample.value("ClearingFirm")[0] = b'1';
        read(lines, &sample.bytes());
        sample = Sample::least(random, PURGE);
        sample.put_ids(random, count);
        for text in [b"FMN", b"AML"] {
            instruct(&mut sample, text);
            read(lines, &sample.bytes());
        }
    }
    for byte in [0, 1, 0x7F, 0x80, 0xFF, 0xBA] {
        let mut sample = Sample::least(random, PURGE);
        sample.middle = vec![byte; 1 + 2 * MOST];
        sample.middle[0] = MOST as u8;
        both(lines, random, &sample);
    }
    // The longest message, and one byte after it.
    let mut sample = Sample::least(random, PURGE);
    sample.select_all();
    sample.put_ids(random, MOST);
    both(lines, random, &sample);
    let mut longer = [sample.bytes(), vec![0]].concat();
    measure(&mut longer);
    read(lines, &longer);
}

/// Cut at every byte from the count byte on, with a length that fits: good, and with what is told
/// before the total and after it.
fn cuts(lines: &mut Vec<String>, random: &mut Random) {
    let mut good = Sample::least(random, PURGE);
    good.put_ids(random, 3);
    let mut late = good.clone();
    instruct(&mut late, b"FSN");
    let mut conflict = good.clone();
    instruct(&mut conflict, b"AML");
    let mut many = good.clone();
    many.put_ids(random, MOST + 1);
    let mut missing = good.clone();
    missing.unselect("MassCancelInst");
    let mut unlisted = good.clone();
    unlisted.set_bit(1, 2);
    for sample in [good, late, conflict, many, missing, unlisted] {
        let message = sample.bytes();
        for end in 11..=message.len() + 2 {
            let mut cut = message.clone();
            cut.resize(end, 0);
            measure(&mut cut);
            read(lines, &cut);
        }
    }
}

/// Each field bad after each number of ids, with one bitfield and with two.
fn places(lines: &mut Vec<String>, random: &mut Random) {
    for count in 0..=MOST {
        for name in [
            "ClearingFirm",
            "MassCancelInst",
            "MassCancelID",
            "SymbolSfx",
        ] {
            let mut sample = Sample::least(random, PURGE);
            sample.put_ids(random, count);
            sample.select("ClearingFirm");
            sample.select(name);
            sample.value(name)[1] = 0xFF;
            read(lines, &sample.bytes());
            if (count + name.len()) % 3 == 0 {
                writing::alone(lines, random, &sample);
            }
        }
    }
}

/// Records: every number of ids and more, over places that are zero and that are not; one id place after
/// the last that is not zero.
fn records(lines: &mut Vec<String>, random: &mut Random) {
    let mut sample = Sample::least(random, PURGE);
    sample.put_ids(random, MOST);
    for count in (0..=13).chain([44, 45, 127, 128, 255]) {
        let mut record = sample.record();
        record[ID_COUNT_PLACE] = count;
        lines.push(writing::line(MEMBER, &record, &[1, 2]));
        record[IDS_PLACE + 2 * usize::from(count).min(MOST)..COUNT_PLACE].fill(0);
        let buffer = vec![0x55; 30 + 2 * usize::from(count).min(MOST)];
        lines.push(writing::line(MEMBER, &record, &buffer));
    }
    sample.put_ids(random, 0);
    for place in (IDS_PLACE..IDS_PLACE + 2 * MOST + 2).chain([COUNT_PLACE - 1]) {
        let mut record = sample.record();
        record[place] = 1 << random.below(8);
        lines.push(writing::line(MEMBER, &record, &[1, 2]));
    }
    for count in [1, 4, 9] {
        sample.put_ids(random, count);
        for place in [0, 1, 2 * (MOST - count) - 1, 2 * (MOST - count)] {
            let mut record = sample.record();
            record[IDS_PLACE + 2 * count + place] = 0x80;
            lines.push(writing::line(MEMBER, &record, &[1, 2]));
        }
    }
    // Too many, before what is told after it and after what is told before it.
    for (place, byte) in [
        (COUNT_PLACE, 3),
        (COUNT_PLACE + 1, 0x0C),
        (COUNT_PLACE + 1, 0),
        (SLOTS_PLACE + 4, 0),
        (SLOTS_PLACE + 4, b'F'),
        (SLOTS_PLACE + 6, b'L'),
        (SLOTS_PLACE, b'A'),
    ] {
        let mut record = sample.record();
        record[ID_COUNT_PLACE] = 11;
        record[place] = byte;
        lines.push(writing::line(MEMBER, &record, &[1, 2]));
    }
}

/// Slots that are not selected do not speak: whatever a value asks for is missing though its slot is not
/// zero, and a slot that is not selected is in no conflict.
fn slots(lines: &mut Vec<String>, random: &mut Random) {
    for (text, names, slot, byte) in [
        (b"AMN", &[][..], 56, 3),
        (b"AMN", &["Symbol"], 56, 3),
        (b"AMN", &["MatchingUnit"], 40, b'A'),
        (b"AMN", &["MatchingUnit"], 48, b'A'),
        (b"FMN", &[], 0, b'T'),
        (b"FMN", &["ClearingFirm"], 20, b'T'),
        (b"ASN", &[], 20, b'T'),
        (b"ABN", &["MassCancelID"], 0, b'T'),
        (b"AML", &[], 0, b'T'),
        (b"AML", &[], 56, 3),
        (b"AML", &["ClearingFirm"], 57, 3),
        (b"FSL", &["ClearingFirm", "MassCancelID"], 40, b'A'),
    ] {
        let mut sample = Sample::least(random, PURGE);
        names.iter().for_each(|name| sample.select(name));
        *sample.value("MatchingUnit") = vec![3];
        instruct(&mut sample, text);
        let mut record = sample.record();
        record[SLOTS_PLACE + slot] = byte;
        for room in [2, sample.bytes().len()] {
            lines.push(writing::line(MEMBER, &record, &vec![9; room]));
        }
    }
}

/// A record's buffer is judged last: good, with too many ids, with what is missing, in conflict.
fn buffers(lines: &mut Vec<String>, random: &mut Random) {
    for (text, count) in [
        (b"AMN", 1),
        (b"AMN", 11),
        (b"FMN", 2),
        (b"ASL", 0),
        (b"AML", 3),
    ] {
        for size in [0, SIZE - 1, SIZE, SESSION_SIZE] {
            let mut sample = Sample::least(random, PURGE);
            sample.put_ids(random, count);
            instruct(&mut sample, text);
            lines.push(into(random, MEMBER, &sample.bytes(), size));
        }
    }
}

#[cfg(test)]
mod tests {
    use super::*;
    use crate::ask;
    use crate::questions::judged;
    use std::collections::BTreeMap;

    /// What the reader or the writer is asked is answered by this count of the rules: A or another
    /// first character asks for nothing, F for a firm; S and B for an id; L for F; and Symbol does not
    /// go with a unit.
    fn expected(text: [u8; 3], choice: usize, unit: u8) -> &'static str {
        let [firm, id, symbol, one] = [0, 1, 2, 3].map(|shift| choice >> shift & 1 == 1);
        if text[1] == 0 && text[2] != 0 {
            return "10";
        }
        let needs = [text[0] == 70 && !firm, [83, 66].contains(&text[1]) && !id];
        let wrong = [text[2] == 76 && text[0] != 70, symbol && one && unit > 0];
        match (needs.contains(&true), wrong.contains(&true)) {
            (true, _) => "9",
            (_, true) => "23",
            _ => "0",
        }
    }

    #[test]
    fn crossed() {
        let mut lines = Vec::new();
        cross(&mut lines, &mut Random::new(200));
        assert_eq!(lines.len(), 2 * 60 * (8 + 16));
        let mut answers = lines.iter().map(|line| ask::answer(line.as_bytes()));
        let mut seen: BTreeMap<&str, usize> = BTreeMap::new();
        for first in b"AFXf" {
            for second in b"MSBN\0" {
                for third in b"NL\0" {
                    for choice in 0..16 {
                        let units: &[u8] = if choice < 8 { &[3] } else { &[0, 3] };
                        for unit in units {
                            let expected = expected([*first, *second, *third], choice, *unit);
                            for _ in 0..2 {
                                let answer = answers.next().unwrap();
                                let number = answer.split(' ').next().unwrap();
                                assert_eq!(ask::number_of(number), expected);
                            }
                            *seen.entry(expected).or_default() += 1;
                        }
                    }
                }
            }
        }
        assert!(answers.next().is_none());
        assert!(seen.len() == 4 && seen.values().all(|count| *count >= 100));
    }

    /// Each number comes that these questions are about, read and written.
    #[test]
    fn numbers() {
        let seen = judged::numbers_by_call(ask);
        for expected in [
            "read 0", "read 3", "read 6", "read 8", "read 9", "read 10", "read 23", "write 0",
            "write 7", "write 8", "write 9", "write 10", "write 12", "write 13", "write 23",
        ] {
            assert!(seen.contains_key(expected), "{}", expected);
        }
    }

    /// The examples: as printed 6 and 3, with the bytes that the length says 6, mended sound; eleven and
    /// 255 ids 10 where they are there and 6 where they are not; a unit beside the Symbol 23.
    #[test]
    fn examples_of_the_documents() {
        let lines = judged::asked_by(from_the_documents);
        let first = |line: &String| {
            let answer = ask::answer(line.as_bytes());
            answer.split(' ').next().unwrap().to_string()
        };
        let all: Vec<String> = lines.iter().map(first).collect();
        assert_eq!(
            all,
            [
                "6@43", "6@43", "0", "3", "6@65", "0", "10@13", "6@58", "10@13", "6@58", "0", "23",
                "23", "23"
            ]
        );
    }
}
