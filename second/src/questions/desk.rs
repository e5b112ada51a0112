//! Questions about what is handed to the desk (document 02, request 2): every type, and that a book
//! takes none of the rejections.

use super::bitfields::places as bitfields;
use super::bitfields::sample::{Sample, REJECTED};
use super::book::{append, restart};
use super::listing;
use super::made::{both, empty, example, greatest, units, Made, DATE};
use super::parts::Parts;
use super::without_repeats;
use crate::random::Random;

pub fn ask(lines: &mut Vec<String>) {
    let mut asked = Vec::new();
    let mut random = Random::new(23);
    types(&mut asked);
    for which in REJECTED {
        after_books(&mut asked, &mut random, which);
        in_books(&mut asked, &mut random, which);
        bad(&mut asked, &mut random, which);
    }
    lines.extend(without_repeats(asked));
}

/// Every type, and lines that are outside the format; the last two are just inside it.
fn types(lines: &mut Vec<String>) {
    lines.extend((0..=255).map(|type_byte| format!("told {}", type_byte)));
    for line in [
        "told",
        "told ",
        "told -",
        "told -1",
        "told +38",
        "told 0x26",
        "told 2B",
        "told 256",
        "told 294",
        "told 4294967334",
        "told 18446744073709551654",
        "told 000000000000000000038",
        "told 38 38",
        "told  38",
        "told 38 ",
        " told 38",
        "Told 38",
        "TOLD 38",
        "tolds 38",
        "told 038",
        "told 00000000000000000041",
    ] {
        lines.push(line.to_string());
    }
}

/// After a book, whole and torn, alone and with a mark or a byte after it; and offered to it.
fn after_books(lines: &mut Vec<String>, random: &mut Random, which: usize) {
    for book in [empty(), both(random), units(random)] {
        for sample in [Sample::least(random, which), Sample::any(random, which)] {
            let message = sample.bytes();
            let size = message.len();
            let bytes = [&book.bytes[..], &message].concat();
            for end in [bytes.len(), bytes.len() - 1, book.bytes.len() + 5] {
                both_calls(lines, &bytes[..end]);
            }
            both_calls(lines, &[&bytes[..], &[0]].concat());
            for room in [size, 0] {
                lines.push(append(DATE, &book.bytes, room, &message));
            }
            lines.push(append(DATE, &book.bytes, size, &message[..size - 1]));
            lines.push(append(DATE + 1, &book.bytes, size, &message));
        }
    }
    let message = greatest(random, which).bytes();
    both_calls(lines, &[example(), message.clone()].concat());
    lines.push(append(DATE, &example(), message.len(), &message));
}

/// Before each mark and message of a book.
fn in_books(lines: &mut Vec<String>, random: &mut Random, which: usize) {
    for book in [both(random), units(random)] {
        for start in &book.starts {
            let message = Sample::least(random, which).bytes();
            let (before, after) = book.bytes.split_at(*start);
            both_calls(lines, &[before, &message, after].concat());
        }
    }
}

/// What the reader refuses, with a place or not: to a book the type comes first. Some have the unit
/// and the number that the next booked message has.
fn bad(lines: &mut Vec<String>, random: &mut Random, which: usize) {
    let mut messages = Vec::new();
    for placed in [
        bitfields::counts(random, which),
        bitfields::bits(random, which),
        bitfields::values(random, which),
    ] {
        let samples = placed.into_iter().map(|(sample, _)| sample.bytes());
        messages.extend(samples.step_by(7));
    }
    let totals = bitfields::totals(random, which).into_iter();
    messages.extend(totals.map(|(bytes, _)| bytes).step_by(7));
    for _ in 0..3 {
        let mut sample = Sample::least(random, which);
        sample.spoil_header(random);
        messages.push(sample.bytes());
    }
    for (index, mut message) in messages.into_iter().enumerate() {
        if index % 3 == 0 {
            message[5..10].copy_from_slice(&[1, 1, 0, 0, 0]);
        }
        let book = match index % 2 {
            0 => empty(),
            _ => Made::new(DATE).mark(),
        };
        both_calls(lines, &[&book.bytes[..], &message].concat());
        let room = [0, message.len()][random.between(0, 1)];
        lines.push(append(DATE, &book.bytes, room, &message));
    }
}

fn both_calls(lines: &mut Vec<String>, book: &[u8]) {
    lines.push(restart(DATE, book));
    lines.push(listing::line(book));
}

#[cfg(test)]
mod tests {
    use super::*;
    use crate::ask;
    use crate::questions::judged;
    use std::collections::BTreeMap;

    #[test]
    fn every_type() {
        let lines = judged::asked_by(types);
        let answers: Vec<String> = lines
            .iter()
            .map(|line| ask::answer(line.as_bytes()))
            .collect();
        let count = |told: &str| answers.iter().filter(|answer| *answer == told).count();
        assert_eq!(
            (count("0"), count("1"), count("2"), count("?")),
            (251, 2, 5, 19)
        );
        for type_byte in [0x26, 0x29, 0x2B] {
            assert_eq!(answers[type_byte], "2");
        }
    }

    /// A book takes none of them: 18, without a place, unless it is torn; offered to it they are 4,
    /// unless they are not whole or the book has another date.
    #[test]
    fn none_is_taken() {
        let mut seen: BTreeMap<String, usize> = BTreeMap::new();
        for line in judged::asked_by(ask) {
            let answer = ask::answer(line.as_bytes());
            if answer == "?" {
                continue;
            }
            let words: Vec<&str> = answer.split(' ').collect();
            let sort = match line.split(' ').next().unwrap() {
                "told" => continue,
                "append" if words[0] == "0" => format!("append 0 {}", words[1]),
                "list" => {
                    let last = answer.rsplit('|').next().unwrap().to_string();
                    let end = last.starts_with("end ");
                    format!("list {}", if end { "end" } else { &last })
                }
                call => format!("{} {}", call, words[0]),
            };
            *seen.entry(sort).or_default() += 1;
        }
        let sorts: Vec<&str> = seen.keys().map(String::as_str).collect();
        assert_eq!(
            sorts,
            [
                "append 0 3",
                "append 0 4",
                "append 17",
                "list 18",
                "list end",
                "restart 0",
                "restart 18"
            ]
        );
        assert!(seen.values().all(|count| *count >= 15));
    }
}
