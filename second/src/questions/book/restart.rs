//! Opening and restart.

use super::faults::{
    bad_messages, changed_books, some_marks, starting_with_a_message, with_tails,
    without_four_zeros, FIRST_MARKS,
};
use super::{open, restart};
use crate::questions::bitfields::sample::{Sample, ACKNOWLEDGMENT, EXECUTION};
use crate::questions::made::{
    both, empty, example, greatest, mark, marks, numbered, units, Made, DATE,
};
use crate::questions::parts::Parts;
use crate::random::Random;

/// Days at the ends of what is one, and numbers that are no day.
const DATES: [u32; 12] = [
    19_700_101,
    20_991_231,
    20_000_229,
    20_240_229,
    20_250_229,
    19_691_231,
    21_000_101,
    20_250_800,
    20_251_301,
    20_250_431,
    0,
    u32::MAX,
];

pub fn ask(lines: &mut Vec<String>, random: &mut Random) {
    opens(lines, random);
    whole_books(lines, random);
    cuts(lines, random);
    for book in changed_books() {
        lines.push(restart(DATE, &book));
    }
    first_marks(lines);
    later_marks(lines, random);
    numbers(lines, random);
    strangers(lines, random);
    for book in with_tails() {
        lines.push(restart(DATE, &book));
    }
}

fn opens(lines: &mut Vec<String>, random: &mut Random) {
    for date in DATES.into_iter().chain([DATE]) {
        for size in [0, 1, 15, 16, 17, 40] {
            lines.push(open(date, &random.bytes(size)));
        }
    }
    for size in 0..=33 {
        lines.push(open(DATE, &vec![0xFF; size]));
    }
    lines.push(open(DATE, &example()));
    lines.push(open(DATE + 1, &example()));
}

/// Asked for their own date and for others.
fn whole_books(lines: &mut Vec<String>, random: &mut Random) {
    lines.push(restart(DATE, &example()));
    let mut books = vec![empty(), marks(), both(random), units(random)];
    for which in [ACKNOWLEDGMENT, EXECUTION] {
        books.push(Made::new(DATE).with(greatest(random, which), 32).mark());
        books.push(Made::new(20_991_231).with(Sample::any(random, which), 7));
    }
    let mut every_unit = Made::new(19_700_101);
    for unit in 1..=32 {
        every_unit = every_unit.with(Sample::least(random, ACKNOWLEDGMENT), unit);
    }
    books.push(every_unit);
    let mut one_unit = Made::new(20_000_229);
    for _ in 0..20 {
        one_unit = one_unit.with(Sample::least(random, EXECUTION), 3);
    }
    books.push(one_unit.mark());
    for book in books {
        lines.push(restart(book.date, &book.bytes));
        if book.bytes.len() < 250 {
            for date in [DATE - 1, DATE + 1, 20_250_832, 0] {
                lines.push(restart(date, &book.bytes));
            }
        }
    }
    for date in DATES {
        lines.push(restart(date, &Made::new(date).bytes));
        lines.push(restart(DATE, &Made::new(date).bytes));
        lines.push(restart(date, &Made::new(DATE).mark().bytes));
    }
}

fn cuts(lines: &mut Vec<String>, random: &mut Random) {
    let execution = Made::new(DATE)
        .mark()
        .with(Sample::least(random, EXECUTION), 9)
        .mark();
    for bytes in [
        marks().bytes,
        example(),
        both(random).bytes,
        execution.bytes,
        units(random).bytes,
        Made::new(DATE)
            .with(greatest(random, ACKNOWLEDGMENT), 2)
            .bytes,
    ] {
        for end in 0..bytes.len() {
            lines.push(restart(DATE, &bytes[..end]));
        }
    }
    // Cuts asked for another date: it is told after 22 only.
    for end in 0..20 {
        lines.push(restart(DATE + 1, &example()[..end]));
        lines.push(restart(0, &example()[..end]));
    }
}

/// First marks with a wrong part, alone and with another date asked besides.
fn first_marks(lines: &mut Vec<String>) {
    for (date, count, back) in FIRST_MARKS {
        for asked in [DATE, DATE + 1, date] {
            lines.push(restart(asked, &mark(date, count, back)));
        }
        for end in [15, 12] {
            lines.push(restart(DATE, &mark(date, count, back)[..end]));
        }
        let mut longer = mark(date, count, back);
        longer.push(1);
        lines.push(restart(DATE, &longer));
    }
    for bad in without_four_zeros() {
        lines.push(restart(DATE, &bad));
        lines.push(restart(DATE + 1, &bad));
    }
    for bad in starting_with_a_message() {
        lines.push(restart(DATE, &bad));
    }
}

/// Later marks of another date, a wrong count or a wrong way back; whole, and one byte short.
fn later_marks(lines: &mut Vec<String>, random: &mut Random) {
    for book in [empty(), marks(), both(random), units(random)] {
        for (date, count, back) in some_marks(&book) {
            let bad = [book.bytes.clone(), mark(date, count, back)].concat();
            lines.push(restart(DATE, &bad));
            lines.push(restart(DATE, &bad[..bad.len() - 1]));
        }
    }
    // A wrong mark in the middle.
    for place in 16..32 {
        let mut book = marks().bytes;
        book[place] ^= 2;
        lines.push(restart(DATE, &book));
    }
}

/// Message numbers about the next one.
fn numbers(lines: &mut Vec<String>, random: &mut Random) {
    for book in [empty(), both(random), units(random)] {
        for unit in [1, 2, 32] {
            let next = book.next(unit);
            for number in [next, next - 1, next + 1, next + 2, 0, u32::MAX, 0x0100_0001] {
                let message = numbered(Sample::least(random, ACKNOWLEDGMENT), unit, number);
                let mut bytes = [book.bytes.clone(), message].concat();
                lines.push(restart(DATE, &bytes));
                bytes.pop();
                lines.push(restart(DATE, &bytes));
            }
        }
        // A unit out of its range.
        for unit in [0, 33, 255] {
            let message = numbered(Sample::least(random, EXECUTION), unit, 1);
            lines.push(restart(DATE, &[book.bytes.clone(), message].concat()));
        }
    }
}

/// Inside a book all of them are 18, unless they are torn.
fn strangers(lines: &mut Vec<String>, random: &mut Random) {
    for message in bad_messages(random) {
        let bytes = [empty().bytes, message].concat();
        lines.push(restart(DATE, &bytes));
        lines.push(restart(DATE, &bytes[..bytes.len() - 1]));
        lines.push(restart(DATE, &[bytes, vec![0]].concat()));
    }
}
