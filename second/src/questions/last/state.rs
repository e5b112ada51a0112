//! Of a state as the C program keeps it, whether it belongs to the book or not.

use super::{several, NO_UNITS};
use crate::hex;
use crate::questions::bitfields::sample::{Sample, ACKNOWLEDGMENT, EXECUTION};
use crate::questions::made::{empty, numbered, Made};
use crate::random::Random;

/// The bytes of a state.
const SIZE: usize = 272;

/// Put together by the places of README.md; units count from 1.
#[derive(Clone)]
pub struct State {
    pub numbers: [u32; 33],
    pub date: u32,
    pub length: u32,
    pub last: u32,
    pub count: u32,
    pub places: [u32; 33],
}

impl State {
    pub fn of(book: &Made) -> State {
        State {
            numbers: book.entries,
            date: book.date,
            length: book.bytes.len() as u32,
            last: book.last as u32,
            count: book.count,
            places: book.places,
        }
    }

    pub fn bytes(&self) -> Vec<u8> {
        let rest = [self.date, self.length, self.last, self.count];
        let all = [&self.numbers[1..], &rest, &self.places[1..]].concat();
        all.iter().flat_map(|number| number.to_le_bytes()).collect()
    }

    /// The same with the entry of a unit.
    fn with(&self, unit: u8, number: u32, place: u32) -> State {
        let mut state = self.clone();
        state.numbers[usize::from(unit)] = number;
        state.places[usize::from(unit)] = place;
        state
    }

    fn with_length(&self, length: u32) -> State {
        State {
            length,
            ..self.clone()
        }
    }
}

pub fn line(state: &[u8], unit: u8, book: &[u8]) -> String {
    let (state, book) = (hex::write(state), hex::write(book));
    format!("last-state {} {} {}", state, unit, book)
}

pub fn ask(lines: &mut Vec<String>, random: &mut Random) {
    let book = short(random);
    let state = State::of(&book);
    sizes(lines, &state, &book);
    units(lines, &state, &book);
    entries(lines, &state, &book);
    lengths(lines, &state, &book);
    for (which, size) in [(ACKNOWLEDGMENT, 48), (EXECUTION, 70)] {
        changes(lines, random, which, size);
    }
    strange_books(lines, random);
    let book = several(random);
    let state = State::of(&book);
    for unit in [7, 32, 1] {
        lines.push(line(&state.bytes(), unit, &book.bytes));
    }
}

/// Two messages of unit 1, and one of unit 32 between them; a mark before the last.
fn short(random: &mut Random) -> Made {
    empty()
        .with(Sample::least(random, ACKNOWLEDGMENT), 1)
        .with(Sample::least(random, ACKNOWLEDGMENT), 32)
        .mark()
        .with(Sample::least(random, ACKNOWLEDGMENT), 1)
}

/// States that are short, in order with what comes before and after it, and longer ones.
fn sizes(lines: &mut Vec<String>, state: &State, book: &Made) {
    let bytes = state.bytes();
    for size in [0, 143, 144, SIZE - 1] {
        lines.push(line(&bytes[..size], 1, &book.bytes));
        lines.push(line(&bytes[..size], 33, &[]));
        lines.push(line(&bytes[..size], 2, &[]));
    }
    for more in [vec![0], bytes.clone()] {
        let longer = [bytes.clone(), more].concat();
        lines.push(line(&longer, 1, &book.bytes));
        lines.push(line(&longer, 2, &[]));
    }
    for size in [SIZE - 1, SIZE] {
        lines.push(line(&vec![0; size], 1, &book.bytes));
        lines.push(line(&vec![0xFF; size], 32, &book.bytes));
    }
}

/// Every kind of unit; of those without a number the place plays no part, and what is of other units
/// plays none.
fn units(lines: &mut Vec<String>, state: &State, book: &Made) {
    for unit in [1, 2, 31, 32].into_iter().chain(NO_UNITS) {
        lines.push(line(&state.bytes(), unit, &book.bytes));
    }
    for place in [16, 128, u32::MAX] {
        lines.push(line(&state.with(2, 0, place).bytes(), 2, &book.bytes));
    }
    lines.push(line(&state.with(1, 0, 128).bytes(), 1, &book.bytes));
    for unit in [0, 1, 2] {
        lines.push(line(&state.bytes(), unit, &[]));
    }
    let mut others = state.clone();
    for unit in 2..=31 {
        others.numbers[unit] = u32::MAX - unit as u32;
        others.places[unit] = 7 * unit as u32;
    }
    (others.date, others.last, others.count) = (u32::MAX, u32::MAX - 1, 0x0403_0201);
    for unit in [1, 3, 32] {
        lines.push(line(&others.bytes(), unit, &book.bytes));
    }
}

/// Numbers beside the message's, and places of other marks and messages, inside them, and past all.
fn entries(lines: &mut Vec<String>, state: &State, book: &Made) {
    let (first, other, mark, second) = (16, 64, 112, 128);
    assert_eq!(book.starts, [0, first, other, mark, second]);
    for (unit, number, place) in [
        (1, 1, second),
        (1, 3, second),
        (1, u32::MAX, second),
        (1, 0x0100_0002, second),
        (1, 1, first),
        (1, 2, first),
        (1, 2, other),
        (1, 1, other),
        (1, 2, mark),
        (1, 2, 0),
        (1, 2, second - 1),
        (1, 2, second + 1),
        (1, 2, first + 38),
        (1, 2, 175),
        (1, 2, 176),
        (1, 2, 177),
        (1, 2, 0x0100_0000 + second),
        (1, 2, 0x1_0000 + second),
        (1, 2, 0x8000_0000 + second),
        (1, 2, 0xFFFF_FFF0),
        (1, 2, 0xFFFF_FFFF),
        (32, 1, first),
        (32, 2, second),
        (32, 2, other),
        (2, 1, first),
        (2, 2, second),
        (2, 1, 0),
    ] {
        let state = state.with(unit, number, place as u32);
        lines.push(line(&state.bytes(), unit, &book.bytes));
    }
}

/// A length about the message's start and end, about that of the buffer, and past all; and a buffer that
/// is lent in part, or that is longer.
fn lengths(lines: &mut Vec<String>, state: &State, book: &Made) {
    for length in [
        0,
        127,
        128,
        129,
        132,
        138,
        175,
        177,
        0x0100_00B0,
        16_777_217,
        u32::MAX,
    ] {
        lines.push(line(&state.with_length(length).bytes(), 1, &book.bytes));
    }
    for length in [111, 112] {
        lines.push(line(&state.with_length(length).bytes(), 32, &book.bytes));
    }
    for lent in [1, 127, 128, 129, 132, 138, 175] {
        lines.push(line(&state.bytes(), 1, &book.bytes[..lent]));
    }
    for lent in [111, 112] {
        lines.push(line(&state.bytes(), 32, &book.bytes[..lent]));
    }
    for (length, lent) in [
        (u32::MAX, 175),
        (175, 176),
        (175, 175),
        (176, 128),
        (128, 176),
    ] {
        let state = state.with_length(length);
        lines.push(line(&state.bytes(), 1, &book.bytes[..lent]));
    }
    for more in [vec![0], vec![0xBA], book.bytes[128..].to_vec()] {
        let longer = [book.bytes.clone(), more].concat();
        lines.push(line(&state.bytes(), 1, &longer));
    }
}

/// A message alone at its place, each kind of field of it changed, and cut or lengthened with its length.
fn changes(lines: &mut Vec<String>, random: &mut Random, which: usize, size: usize) {
    let book = empty().with(Sample::least(random, which), 7);
    let state = State::of(&book).bytes();
    assert_eq!(book.bytes.len(), 16 + size);
    let count = size - 1;
    for (place, byte) in [
        (0, 0xBB),
        (1, 0),
        (2, 7),
        (2, size as u8 - 1),
        (2, size as u8 - 3),
        (3, 8),
        (4, 0x25),
        (4, 0x2C),
        (4, 0x26),
        (4, 0),
        (5, 0),
        (5, 8),
        (5, 33),
        (6, 0),
        (6, 2),
        (10, 0x55),
        (18, 0),
        (18, b','),
        (count - 1, 0x55),
        (count, 1),
        (count, 16),
    ] {
        let mut bytes = book.bytes.clone();
        bytes[16 + place] = byte;
        lines.push(line(&state, 7, &bytes));
    }
    // Bitfields: none that are set, one that is not listed, and a field that is there or is not.
    let mut sample = Sample::least(random, which);
    sample.select("Price");
    sample.lengthen(3);
    let book = empty().with(sample, 7);
    let state = State::of(&book).bytes();
    for (more, byte) in [(1, 4), (1, 2), (1, 0), (2, 0x80), (3, 1)] {
        let mut bytes = book.bytes.clone();
        bytes[16 + count + more] = byte;
        lines.push(line(&state, 7, &bytes));
    }
}

/// What stands before the place plays no part, nor what restart would say of the book; numbers and
/// places with several bytes.
fn strange_books(lines: &mut Vec<String>, random: &mut Random) {
    for which in [ACKNOWLEDGMENT, EXECUTION] {
        for (place, number) in [(0, 1), (1, 0x0403_0201), (258, 0xFFFF_FFFF)] {
            let message = numbered(Sample::least(random, which), 9, number);
            let book = [random.bytes(place), message].concat();
            let mut state = State::of(&empty()).with(9, number, place as u32);
            state.length = book.len() as u32;
            lines.push(line(&state.bytes(), 9, &book));
            let other = state.with(9, number.swap_bytes(), place as u32);
            lines.push(line(&other.bytes(), 9, &book));
        }
    }
}
