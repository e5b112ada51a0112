//! Questions about the places that refusals tell (document 02, request 3).

use super::bitfields::places as bitfields;
use super::bitfields::sample::{Sample, ACKNOWLEDGMENT, EXECUTION};
use super::book::append;
use super::listing;
use super::made::{both, empty, mark, Made, DATE};
use super::parts::{measure, Parts};
use super::reading;
use super::session::places as session;
use super::session::sample::{BARE, LISTED};
use super::sizes::into;
use super::writing::{self, pattern};
use crate::examples;
use crate::random::Random;
use crate::rules::layout;
use crate::rules::record::{SESSION_SIZE, SIZE};
use crate::rules::session::ALL;
use crate::rules::types::MEMBER;

pub fn ask(lines: &mut Vec<String>) {
    let mut random = Random::new(22);
    from_the_documents(lines);
    for which in 0..layout::ALL.len() {
        let direction = layout::ALL[which].direction();
        let placed = bitfields::faulty(&mut random, which);
        read_and_written(lines, &mut random, &placed);
        ends(lines, direction, &bitfields::totals(&mut random, which));
    }
    for which in LISTED.into_iter().chain(BARE) {
        let placed = session::values(&mut random, which);
        read_and_written(lines, &mut random, &placed);
        let totals = session::totals(&mut random, which);
        ends(lines, ALL[which].direction(), &totals);
    }
    for which in 0..layout::ALL.len() {
        let placed = bitfields::faulty(&mut random, which);
        let totals = bitfields::totals(&mut random, which);
        read_into(lines, &mut random, &placed, &totals);
    }
    for which in LISTED {
        let placed = session::values(&mut random, which);
        let totals = session::totals(&mut random, which);
        read_into(lines, &mut random, &placed, &totals);
    }
    for which in [ACKNOWLEDGMENT, EXECUTION] {
        let messages = booked(&mut random, which);
        appends(lines, &mut random, &messages);
        lists(lines, &mut random, &messages);
        other_faults(lines, &mut random, &messages);
    }
    without_place(lines, &mut random);
}

/// Faults of the New Order example, of the login example of 002, and of a heartbeat.
fn from_the_documents(lines: &mut Vec<String>) {
    let mut read = |message: &[u8]| lines.push(reading::line(MEMBER, message));
    for changes in [
        &[(2, 0x49)][..],
        &[(35, 0x0B)],
        &[(37, 0xC9)],
        &[(37, 0xC0)],
        &[(60, 0x07)],
        &[(30, 0)],
        &[(30, 0), (60, 0x07)],
        &[(31, 0), (32, 0)],
        &[(35, 0), (2, 34)],
    ] {
        read(&changed(examples::new_order(), changes));
    }
    read(&changed(examples::options_login(), &[(14, 0x2D)]));
    for example in [examples::options_login(), examples::client_heartbeat()] {
        let mut longer = [example, vec![0]].concat();
        measure(&mut longer);
        read(&longer);
    }
}

/// A message with bytes changed.
fn changed(mut message: Vec<u8>, changes: &[(usize, u8)]) -> Vec<u8> {
    for (place, byte) in changes {
        message[*place] = *byte;
    }
    message
}

/// Each message read, and its record written.
fn read_and_written<P: Parts>(lines: &mut Vec<String>, random: &mut Random, placed: &[(P, usize)]) {
    for (sample, _) in placed {
        let direction = sample.direction();
        lines.push(reading::line(direction, &sample.bytes()));
        let room = random.between(0, 3);
        let buffer = pattern(random, room);
        lines.push(writing::line(direction, &sample.record(), &buffer));
    }
}

fn ends(lines: &mut Vec<String>, direction: u8, totals: &[(Vec<u8>, usize)]) {
    for (bytes, _) in totals {
        lines.push(reading::line(direction, bytes));
    }
}

/// Some of the messages, with buffers that are long enough and not.
fn read_into<P: Parts>(
    lines: &mut Vec<String>,
    random: &mut Random,
    placed: &[(P, usize)],
    totals: &[(Vec<u8>, usize)],
) {
    let direction = placed[0].0.direction();
    let samples = placed.iter().step_by(16).map(|(sample, _)| sample.bytes());
    let short = totals.iter().step_by(16).map(|(bytes, _)| bytes.clone());
    for bytes in samples.chain(short) {
        let size = [0, 3, SIZE, SESSION_SIZE][random.between(0, 3)];
        lines.push(into(random, direction, &bytes, size));
    }
}

/// Messages of a type that a book holds, unit 1 and number 1, each refused with a place: all with a
/// bad value, and some of the others.
fn booked(random: &mut Random, which: usize) -> Vec<Vec<u8>> {
    let mut placed = bitfields::values(random, which);
    placed.extend(bitfields::counts(random, which).into_iter().step_by(3));
    placed.extend(bitfields::bits(random, which).into_iter().step_by(2));
    let samples = placed.into_iter().map(|(sample, _)| sample.bytes());
    let totals = bitfields::totals(random, which).into_iter().step_by(3);
    samples
        .chain(totals.map(|(bytes, _)| bytes))
        .map(|message| changed(message, &[(5, 1), (6, 1), (7, 0), (8, 0), (9, 0)]))
        .collect()
}

/// Onto a book of one mark and onto a longer one, in which the number is out of turn: that is told
/// after what the reader refuses.
fn appends(lines: &mut Vec<String>, random: &mut Random, messages: &[Vec<u8>]) {
    let longer = both(random).bytes;
    for (index, message) in messages.iter().step_by(2).enumerate() {
        let book = match index % 4 {
            0 => &longer,
            _ => &empty().bytes,
        };
        let room = [0, message.len()][random.between(0, 1)];
        lines.push(append(DATE, book, room, message));
    }
}

/// After the first mark, and later in a book, where the place still counts from the message.
fn lists(lines: &mut Vec<String>, random: &mut Random, messages: &[Vec<u8>]) {
    for (index, message) in messages.iter().enumerate() {
        lines.push(listing::line(&[&empty().bytes[..], message].concat()));
        if index % 3 == 0 {
            let book = book_before(random);
            let after = mark(DATE, book.count + 1, message.len() as u32);
            lines.push(listing::line(
                &[book.bytes, message.clone(), after].concat(),
            ));
        }
    }
}

/// A message of another unit, and perhaps a mark.
fn book_before(random: &mut Random) -> Made {
    let book = empty().with(Sample::least(random, EXECUTION), 7);
    match random.below(2) {
        0 => book,
        _ => book.mark(),
    }
}

/// What is told before the reader's place, so that none is told: the start, the length, the type and
/// the unit. What is told after it: the number. And a message that is torn.
fn other_faults(lines: &mut Vec<String>, random: &mut Random, messages: &[Vec<u8>]) {
    for message in messages.iter().step_by(20) {
        let mut list = |message: &[u8]| {
            let book = book_before(random).bytes;
            lines.push(listing::line(&[&book, message].concat()));
        };
        for changes in [
            &[(1, 0)][..],
            &[(2, 7), (3, 0)],
            &[(4, 0x26)],
            &[(4, 0x27)],
            &[(4, 0x29), (5, 0), (6, 0)],
            &[(4, 0x2B), (5, 0), (6, 0)],
            &[(4, 0x38)],
            &[(5, 0)],
            &[(5, 33)],
            &[(6, 2)],
            &[(6, 0)],
            &[(5, 7)],
        ] {
            list(&changed(message.clone(), changes));
        }
        list(&message[..message.len() - 1]);
    }
}

/// Marks out of order, and readable messages out of turn: 18 without a place.
fn without_place(lines: &mut Vec<String>, random: &mut Random) {
    for which in [ACKNOWLEDGMENT, EXECUTION] {
        for (unit, number) in [(1, 0), (1, 2), (7, 1), (7, 3), (32, u32::MAX)] {
            let mut sample = Sample::any(random, which);
            (sample.unit, sample.number) = (unit, number);
            let book = book_before(random).bytes;
            lines.push(listing::line(&[book, sample.bytes()].concat()));
        }
    }
    for (date, count, back) in [(DATE + 1, 1, 0), (DATE, 2, 0), (DATE, 1, 1)] {
        let book = book_before(random);
        let away = (book.bytes.len() - book.last) as u32;
        let bad = mark(date, count, away + back);
        lines.push(listing::line(&[book.bytes, bad].concat()));
    }
}

#[cfg(test)]
mod tests {
    use super::*;
    use crate::ask;
    use crate::questions::judged;
    use std::collections::{BTreeMap, BTreeSet};

    /// The word of an answer that tells a refusal.
    fn told(line: &str) -> String {
        let answer = ask::answer(line.as_bytes());
        match line.split(' ').next() {
            Some("append") => answer.split(' ').nth(1).unwrap().to_string(),
            Some("list") => answer.rsplit('|').next().unwrap().to_string(),
            _ => answer.split(' ').next().unwrap().to_string(),
        }
    }

    #[test]
    fn worked_facts() {
        let lines = judged::asked_by(from_the_documents);
        let all: Vec<String> = lines.iter().map(|line| told(line)).collect();
        assert_eq!(
            all,
            [
                "6@75", "7@35", "8@37", "9@38", "10@60", "10@30", "10@30", "10@31", "9@35",
                "10@14", "6@64", "6@11"
            ]
        );
    }

    /// All but the listings of other faults tell a place; each call tells each number that it can.
    #[test]
    fn each_call_tells_each_number() {
        let mut seen: BTreeMap<String, BTreeSet<String>> = BTreeMap::new();
        for line in judged::asked_by(ask) {
            let call = line.split(' ').next().unwrap();
            let told = told(&line);
            assert!(call == "list" || told.contains('@'), "{}", line);
            let kind = match (call, told.split(' ').count()) {
                ("list", 2) => "18 PLACE",
                ("list", _) => told.split(' ').next().unwrap(),
                _ => ask::number_of(&told),
            };
            let numbers = seen.entry(call.to_string()).or_default();
            numbers.insert(kind.to_string());
        }
        for (call, expected) in [
            ("read", &["6", "7", "8", "9", "10"][..]),
            ("read-into", &["6", "7", "8", "9", "10"]),
            ("write", &["7", "8", "9", "10"]),
            ("append", &["6", "7", "8", "10"]),
            ("list", &["18", "18 PLACE", "end"]),
        ] {
            let expected = expected.iter().map(|word| word.to_string()).collect();
            assert_eq!(seen.remove(call), Some(expected), "{}", call);
        }
        assert!(seen.is_empty());
    }

    /// A listing tells the place that the reader tells of the same message.
    #[test]
    fn listings_and_readings() {
        let mut random = Random::new(194);
        for which in [ACKNOWLEDGMENT, EXECUTION] {
            for message in booked(&mut random, which) {
                let read = told(&reading::line(1, &message));
                let (_, place) = read.split_once('@').unwrap();
                let mut lines = Vec::new();
                lists(&mut lines, &mut random, &[message.clone()]);
                assert_eq!(lines.len(), 2);
                for line in lines {
                    assert_eq!(told(&line), format!("18 {}", place));
                }
            }
        }
    }
}
