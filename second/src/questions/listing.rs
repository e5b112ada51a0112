//! Questions about the listing of a book.

#[cfg(test)]
mod tests;

use super::bitfields::sample::{Sample, ACKNOWLEDGMENT, EXECUTION};
use super::book::faults::{
    bad_messages, changed_books, some_marks, starting_with_a_message, with_tails,
    without_four_zeros, FIRST_MARKS,
};
use super::book::{damaged, group};
use super::made::{
    both, empty, example, greatest, mark, marks, numbered, random_book, some_type, units, Made,
    DATE, MARK,
};
use super::parts::{measure, Parts};
use super::without_repeats;
use crate::examples;
use crate::hex;
use crate::random::Random;

/// Prices about zero, about whole numbers, with all their digits, and at the ends.
const PRICES: [i64; 27] = [
    0,
    1,
    -1,
    9,
    10,
    -10,
    99,
    100,
    999,
    -1_000,
    9_999,
    -9_999,
    10_000,
    -10_000,
    10_001,
    -10_001,
    99_999,
    100_000,
    1_234_500,
    -123_400,
    4_294_967_295,
    -4_294_967_296,
    1_234_567_890_123_456_789,
    1_000_000_000_000_000_000,
    i64::MAX,
    i64::MIN,
    i64::MIN + 1,
];

pub fn line(book: &[u8]) -> String {
    format!("list {}", hex::write(book))
}

pub fn ask(lines: &mut Vec<String>) {
    let mut asked = vec![
        line(&example()[..73]),
        line(&[&example()[..73], &[0xBA]].concat()),
    ];
    let mut random = Random::new(21);
    small(&mut asked, &mut random);
    first_marks(&mut asked);
    whole_books(&mut asked, &mut random);
    cuts(&mut asked, &mut random);
    asked.extend(with_tails().iter().map(|book| line(book)));
    later_marks(&mut asked, &mut random);
    numbers(&mut asked, &mut random);
    strangers(&mut asked, &mut random);
    prices(&mut asked, &mut random);
    identifiers(&mut asked, &mut random);
    asked.extend(changed_books().iter().map(|book| line(book)));
    for _ in 0..60 {
        asked.extend(group(&mut random).lines.into_iter().skip(4));
        let book = random_book(&mut random);
        let mut bytes = damaged(&mut random, &book.bytes);
        bytes = damaged(&mut random, &bytes);
        asked.push(line(&bytes));
    }
    outside(&mut asked);
    long(&mut asked, &mut random);
    lines.extend(without_repeats(asked));
}

/// No bytes, and too few of them, in order or not.
fn small(lines: &mut Vec<String>, random: &mut Random) {
    lines.push(line(&[]));
    for size in 1..MARK {
        lines.push(line(&mark(DATE, 0, 0)[..size]));
        lines.push(line(&vec![0; size]));
        lines.push(line(&examples::booked_acknowledgment()[..size]));
        lines.push(line(&random.bytes(size)));
    }
    lines.push(line(&[0; MARK]));
    lines.push(line(&random.bytes(MARK)));
    lines.push(line(&mark(DATE, 0, 0)));
}

fn first_marks(lines: &mut Vec<String>) {
    for (date, count, back) in FIRST_MARKS {
        let first = mark(date, count, back);
        lines.push(line(&first));
        lines.push(line(&[first.clone(), vec![1]].concat()));
        lines.push(line(&[first, mark(date, 0, 16)].concat()));
    }
    for date in [19_700_101, 20_991_231, 20_000_229, 20_240_229, u32::MAX] {
        lines.push(line(&Made::new(date).mark().bytes));
    }
    for bad in without_four_zeros() {
        lines.push(line(&bad));
    }
    for bad in starting_with_a_message() {
        lines.push(line(&bad));
    }
}

fn whole_books(lines: &mut Vec<String>, random: &mut Random) {
    let mut books = vec![empty(), marks(), both(random), units(random)];
    for which in [ACKNOWLEDGMENT, EXECUTION] {
        books.push(Made::new(DATE).with(greatest(random, which), 32).mark());
        for unit in [1, 9, 10, 32] {
            books.push(Made::new(20_991_231).with(Sample::any(random, which), unit));
        }
    }
    let mut every_unit = Made::new(19_700_101);
    for unit in 1..=32 {
        let which = some_type(random);
        every_unit = every_unit.with(Sample::least(random, which), unit);
    }
    books.push(every_unit.mark());
    for book in books {
        lines.push(line(&book.bytes));
    }
}

fn cuts(lines: &mut Vec<String>, random: &mut Random) {
    let mut priced = Sample::least(random, EXECUTION);
    priced.select("Price");
    let execution = Made::new(DATE).mark().with(priced, 9).mark();
    for bytes in [
        marks().bytes,
        example(),
        execution.bytes,
        both(random).bytes,
        units(random).bytes,
    ] {
        for end in MARK..bytes.len() {
            lines.push(line(&bytes[..end]));
        }
    }
}

/// Later marks of another date, a wrong count or a wrong way back: whole, one byte short, and with
/// a mark after them.
fn later_marks(lines: &mut Vec<String>, random: &mut Random) {
    for book in [empty(), marks(), both(random)] {
        for (date, count, back) in some_marks(&book) {
            let bad = [book.bytes.clone(), mark(date, count, back)].concat();
            lines.push(line(&bad));
            lines.push(line(&bad[..bad.len() - 1]));
            lines.push(line(&[bad, mark(date, count, 16)].concat()));
        }
    }
}

/// Message numbers about the next one, and units out of their range.
fn numbers(lines: &mut Vec<String>, random: &mut Random) {
    for book in [empty(), both(random)] {
        for unit in [1, 2, 32] {
            let next = book.next(unit);
            for number in [next, next - 1, next + 1, 0, u32::MAX, 0x0100_0001] {
                let message = numbered(Sample::least(random, ACKNOWLEDGMENT), unit, number);
                lines.push(line(&[book.bytes.clone(), message].concat()));
            }
        }
        for unit in [0, 33, 255] {
            let message = numbered(Sample::least(random, EXECUTION), unit, 1);
            lines.push(line(&[book.bytes.clone(), message].concat()));
        }
    }
}

/// Messages that a book does not take: whole, torn, and with something after them.
fn strangers(lines: &mut Vec<String>, random: &mut Random) {
    let good = examples::booked_acknowledgment();
    for message in bad_messages(random) {
        let bytes = [empty().bytes, message.clone()].concat();
        lines.push(line(&bytes));
        lines.push(line(&bytes[..bytes.len() - 1]));
        let after = [empty().bytes, good.clone(), message, good.clone()];
        lines.push(line(&after.concat()));
    }
}

/// Both types with each price, alone and among other fields.
fn prices(lines: &mut Vec<String>, random: &mut Random) {
    for which in [ACKNOWLEDGMENT, EXECUTION] {
        for price in PRICES {
            let mut alone = Sample::least(random, which);
            alone.select("Price");
            let mut after_side = alone.clone();
            after_side.select("Side");
            after_side.lengthen(3);
            let mut all = greatest(random, which);
            let mut book = empty();
            for sample in [&mut alone, &mut after_side, &mut all] {
                *sample.value("Price") = price.to_le_bytes().to_vec();
                book = book.with(sample.clone(), 1);
            }
            lines.push(line(&book.bytes));
        }
        // Each other field alone, so that no Price is there.
        let layout = Sample::least(random, which).layout;
        for field in layout.listed.iter().filter(|field| field.name != "Price") {
            let mut sample = Sample::least(random, which);
            sample.select(field.name);
            lines.push(line(&empty().with(sample, 1).bytes));
        }
    }
}

/// ClOrdID of each length, and with the characters at the ends of what it takes.
fn identifiers(lines: &mut Vec<String>, random: &mut Random) {
    for which in [ACKNOWLEDGMENT, EXECUTION] {
        for size in 1..=20 {
            let mut sample = Sample::least(random, which);
            sample.value("ClOrdID")[size..].fill(0);
            lines.push(line(&empty().with(sample, 5).bytes));
        }
    }
    for text in [
        b"!#$%&'()*+-./0123456",
        b"789:<=>?ABCDEFGHIJKL",
        b"MNOPQRSTUVWXYZ[\\]^_`",
        b"abcdefghijklmnopqrst",
        b"uvwxyz{}~-\0\0\0\0\0\0\0\0\0\0",
    ] {
        let mut sample = Sample::least(random, ACKNOWLEDGMENT);
        *sample.value("ClOrdID") = text.to_vec();
        lines.push(line(&empty().with(sample, 5).bytes));
    }
}

fn outside(lines: &mut Vec<String>) {
    for line in [
        "list",
        "list ",
        "list  -",
        "list - ",
        " list -",
        "list - -",
        "list 20250819 -",
        "list 0",
        "list BAB",
        "list ba",
        "list 00-",
        "List -",
        "LIST -",
        "lists -",
        "lis -",
    ] {
        lines.push(line.to_string());
    }
}

/// Books in lines about as long as they may be: marks alone, messages alone, and a long message.
fn long(lines: &mut Vec<String>, random: &mut Random) {
    let mut all_marks = Made::new(DATE);
    for _ in 1..249 {
        all_marks = all_marks.mark();
    }
    let zeros = |size: usize| vec![0; size];
    lines.push(line(&all_marks.bytes));
    lines.push(line(&[all_marks.bytes.clone(), zeros(13)].concat()));
    lines.push(line(&[all_marks.bytes.clone(), zeros(14)].concat()));
    let mut bad = all_marks.bytes.clone();
    let last = bad.len() - 1;
    bad[last] ^= 1;
    lines.push(line(&bad));
    // Units in turn, so that all numbers stay small; and one unit, so that they grow.
    for units in [32, 1] {
        let mut book = Made::new(20_991_231);
        let mut unit = 0;
        loop {
            unit = unit % units + 1;
            let which = some_type(random);
            let mut sample = Sample::least(random, which);
            if random.below(2) == 0 {
                sample.select("Price");
            }
            let longer = book.clone().with(sample, unit);
            if longer.bytes.len() > 3_997 {
                break;
            }
            book = longer;
        }
        lines.push(line(&book.bytes));
        let missing = 3_997 - book.bytes.len();
        let torn = &examples::acknowledgment()[..missing.min(50)];
        lines.push(line(&[&book.bytes, torn].concat()));
        let middle = book.starts[book.starts.len() / 2];
        let mut bad = book.bytes.clone();
        bad[middle + 6] ^= 4;
        lines.push(line(&bad));
    }
    // What is not taken may be as long as a message can be.
    let mut stranger = Sample::least(random, ACKNOWLEDGMENT).bytes();
    stranger.resize(2_048, b'A');
    measure(&mut stranger);
    let bytes = [empty().bytes, stranger].concat();
    lines.push(line(&bytes));
    lines.push(line(&bytes[..bytes.len() - 1]));
}
