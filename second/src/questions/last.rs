//! Questions about the last message of a unit.

mod state;
#[cfg(test)]
mod tests;

use super::bitfields::sample::{Sample, ACKNOWLEDGMENT, EXECUTION};
use super::book::{damaged, group, Group};
use super::made::{empty, example, mark, Made, DATE, MARK};
use super::without_repeats;
use crate::examples;
use crate::hex;
use crate::random::Random;
use state::State;

/// Numbers that are no unit.
const NO_UNITS: [u8; 3] = [0, 33, 255];

pub fn last(date: u32, unit: u8, book: &[u8]) -> String {
    format!("last {} {} {}", date, unit, hex::write(book))
}

pub fn line(unit: u8, book: &[u8]) -> String {
    format!("last-line {} {}", unit, hex::write(book))
}

pub fn ask(lines: &mut Vec<String>) {
    let mut asked = Vec::new();
    let mut random = Random::new(27);
    small(&mut asked);
    examples_of_books(&mut asked);
    let book = several(&mut random);
    cuts(&mut asked, &book);
    faults(&mut asked, &book);
    refused(&mut asked);
    all_units(&mut asked, &mut random);
    state::ask(&mut asked, &mut random);
    for _ in 0..10 {
        let group = group(&mut random);
        asked.extend(three(&mut random, &group));
    }
    longest(&mut asked, &mut random);
    lines.extend(without_repeats(asked));
}

/// Both calls that look for the last message in a book.
fn both(lines: &mut Vec<String>, unit: u8, book: &[u8]) {
    lines.push(last(DATE, unit, book));
    lines.push(line(unit, book));
}

/// Books without a message, and too few bytes for one.
fn small(lines: &mut Vec<String>) {
    for unit in [1, 32, 0, 33] {
        both(lines, unit, &[]);
        both(lines, unit, &mark(DATE, 0, 0)[..15]);
        both(lines, unit, &mark(DATE, 0, 0));
        both(lines, unit, &empty().mark().bytes);
        both(lines, unit, &[0; 16]);
    }
    for unit in NO_UNITS {
        both(lines, unit, &[1]);
    }
}

/// Document 01's, and one with a second mark and a second message after it.
fn examples_of_books(lines: &mut Vec<String>) {
    let first = [&example()[..73], &[0xBA]].concat();
    for unit in [1, 2, 32].into_iter().chain(NO_UNITS) {
        both(lines, unit, &first);
    }
    let mut second = examples::booked_acknowledgment();
    second[6] = 2;
    let longer = [example(), second, mark(DATE, 2, 73)].concat();
    assert_eq!(longer.len(), 162);
    for end in [162, 161, 147, 146, 145, 90, 89, 73, 72, 17, 16] {
        both(lines, 1, &longer[..end]);
    }
    both(lines, 2, &longer);
    both(lines, 0, &longer);
}

/// Two units and both types, marks between them.
fn several(random: &mut Random) -> Made {
    empty()
        .with(Sample::least(random, ACKNOWLEDGMENT), 7)
        .mark()
        .with(Sample::least(random, EXECUTION), 32)
        .with(Sample::least(random, ACKNOWLEDGMENT), 7)
        .mark()
}

/// Every cut for the unit that comes twice; for the others those about each mark and message.
fn cuts(lines: &mut Vec<String>, book: &Made) {
    let size = book.bytes.len();
    for end in 0..=size {
        lines.push(last(DATE, 7, &book.bytes[..end]));
    }
    for start in book.starts[1..].iter().copied().chain([size]) {
        for end in [start - 1, start, (start + 1).min(size)] {
            let cut = &book.bytes[..end];
            lines.push(last(DATE, 32, cut));
            lines.push(line(7, cut));
            lines.push(line(32, cut));
        }
        lines.push(last(DATE, 1, &book.bytes[..start]));
        lines.push(line(31, &book.bytes[..start]));
    }
}

/// A byte changed at each kind of place of a mark and of a message, first and last ones; and marks and
/// messages left out.
fn faults(lines: &mut Vec<String>, book: &Made) {
    let of_marks = [0, 3, 4, 8, 12];
    let of_messages = [0, 1, 2, 3, 4, 5, 6, 9, 10, 18, 37, 46, 47];
    for start in &book.starts {
        let places = match book.bytes[*start] {
            0 => &of_marks[..],
            _ => &of_messages,
        };
        for place in places {
            let mut bytes = book.bytes.clone();
            bytes[start + place] ^= 1;
            // Each of them is asked by one call, and both units in turn.
            let unit = if place % 2 == 0 { 7 } else { 32 };
            match (start + place) % 2 {
                0 => lines.push(last(DATE, unit, &bytes)),
                _ => lines.push(line(unit, &bytes)),
            }
        }
    }
    // The unit of a message alone: another one, which it is the first of, one that has it already, none.
    for (start, unit) in [
        (16, 9),
        (16, 32),
        (16, 0),
        (16, 33),
        (80, 9),
        (80, 7),
        (80, 33),
    ] {
        let mut bytes = book.bytes.clone();
        bytes[start + 5] = unit;
        lines.push(last(DATE, 9, &bytes));
        lines.push(line(7, &bytes));
    }
    for index in 1..book.starts.len() - 1 {
        let (start, end) = (book.starts[index], book.starts[index + 1]);
        let bytes = [&book.bytes[..start], &book.bytes[end..]].concat();
        lines.push(last(DATE, 7, &bytes));
        lines.push(line(7, &bytes));
    }
}

/// What restart refuses comes before what is asked of the unit; in the listing a unit that is none
/// comes first.
fn refused(lines: &mut Vec<String>) {
    let book = &example()[..73];
    for unit in [1, 33] {
        for (date, bytes) in [
            (20_250_832, book.to_vec()),
            (20_250_832, vec![]),
            (DATE, book[..15].to_vec()),
            (DATE + 1, book[..15].to_vec()),
            (DATE + 1, book.to_vec()),
            (DATE + 1, [book, &[1]].concat()),
            (DATE, mark(DATE, 1, 0)),
            (DATE, mark(DATE + 1, 0, 1)),
            (DATE, [book, &[1]].concat()),
            (DATE, [book, &[0; 16]].concat()),
            (DATE, [book, &examples::booked_acknowledgment()].concat()),
        ] {
            lines.push(last(date, unit, &bytes));
            lines.push(line(unit, &bytes));
        }
    }
}

/// All of them in one book, in an order of its own.
fn all_units(lines: &mut Vec<String>, random: &mut Random) {
    let mut book = Made::new(DATE);
    for index in 0..32_u32 {
        let unit = (index * 11 % 32 + 1) as u8;
        book = book.with(Sample::least(random, ACKNOWLEDGMENT), unit);
    }
    for unit in [1, 17, 32] {
        lines.push(last(DATE, unit, &book.bytes));
    }
    lines.push(line(31, &book.bytes));
}

/// A book in a line as long as it may be: a message, marks after it, and a torn one.
fn longest(lines: &mut Vec<String>, random: &mut Random) {
    let mut early = empty().with(Sample::least(random, ACKNOWLEDGMENT), 32);
    while early.bytes.len() + MARK <= 3_991 {
        early = early.mark();
    }
    let missing = 3_991 - early.bytes.len();
    let torn = [early.bytes.clone(), vec![0; missing]].concat();
    lines.push(last(DATE, 32, &torn));
}

/// Three questions of a random book: about a unit of the cut one, about a unit of the damaged one, and
/// about a state of the cut one or of the whole one after zero to two changes.
pub fn three(random: &mut Random, group: &Group) -> Vec<String> {
    let Group {
        book, end, damaged, ..
    } = group;
    let cut = &book.bytes[..*end];
    let good = book.cut(*end);
    let unit = some_unit(random, &good);
    let other = some_unit(random, book);
    let state = match random.below(2) {
        0 => changed_state(random, &good, cut),
        _ => changed_state(random, book, &book.bytes),
    };
    vec![last(book.date, unit, cut), line(other, damaged), state]
}

/// A unit of the book in most cases, else any, or none.
fn some_unit(random: &mut Random, book: &Made) -> u8 {
    let used = book.used();
    match random.below(12) {
        0 => random.pick(&NO_UNITS),
        1..=3 => random.between(1, 32) as u8,
        _ if used.is_empty() => random.between(1, 32) as u8,
        _ => random.pick(&used),
    }
}

fn changed_state(random: &mut Random, book: &Made, bytes: &[u8]) -> String {
    let unit = some_unit(random, book);
    let (mut state, mut bytes) = (State::of(book), bytes.to_vec());
    let index = usize::from(unit) % 33;
    let mut size = None;
    for _ in 0..random.below(3) {
        match random.below(9) {
            0 => {
                let by = [1, 2, u32::MAX][random.between(0, 2)];
                state.numbers[index] = state.numbers[index].wrapping_add(by);
            }
            1 => {
                let by = [1, 16, u32::MAX][random.between(0, 2)];
                state.places[index] = state.places[index].wrapping_add(by);
            }
            2 => {
                // A mark or a message of the book, or its end.
                let ends = [book.starts.clone(), vec![book.bytes.len()]].concat();
                state.places[index] = ends[random.between(0, ends.len() - 1)] as u32;
            }
            3 => state.places[index] = random.number(),
            4 => state.length = random.between(0, bytes.len() + 20) as u32,
            5 => state.length = random.number(),
            6 => bytes.truncate(random.between(0, bytes.len())),
            7 if !bytes.is_empty() => bytes = damaged(random, &bytes),
            _ => size = Some(random.between(0, 280)),
        }
    }
    let mut state = state.bytes();
    if let Some(size) = size {
        state.resize(size, 0xEE);
    }
    state::line(&state, unit, &bytes)
}
