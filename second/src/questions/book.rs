//! Questions about the day book.

mod append;
pub mod faults;
mod outside;
mod restart;
#[cfg(test)]
mod tests;

use super::bitfields::sample::Sample;
use super::made::{numbered, random_book, rejection, some_type, Made, MARK};
use super::parts::Parts;
use super::{listing, without_repeats};
use crate::hex;
use crate::random::Random;

pub fn ask(lines: &mut Vec<String>) {
    let mut asked = Vec::new();
    let mut random = Random::new(20);
    restart::ask(&mut asked, &mut random);
    append::ask(&mut asked, &mut random);
    for _ in 0..75 {
        // The listing has a section of its own.
        asked.extend(group(&mut random).lines.into_iter().take(4));
    }
    outside::ask(&mut asked);
    lines.extend(without_repeats(asked));
}

fn open(date: u32, buffer: &[u8]) -> String {
    format!("open {} {}", date, hex::write(buffer))
}

pub fn restart(date: u32, book: &[u8]) -> String {
    format!("restart {} {}", date, hex::write(book))
}

pub fn append(date: u32, book: &[u8], room: usize, message: &[u8]) -> String {
    let (book, message) = (hex::write(book), hex::write(message));
    format!("append {} {} {} {}", date, book, room, message)
}

fn close(date: u32, book: &[u8], room: usize) -> String {
    format!("close {} {} {}", date, hex::write(book), room)
}

/// A random book, what is asked of it, and where it is cut and how it is damaged for that.
pub struct Group {
    pub lines: Vec<String>,
    pub book: Made,
    pub end: usize,
    pub damaged: Vec<u8>,
}

/// A random book cut, or damaged or with a rejection in it, and restarted, a message appended to it, its session closed, and
/// the listing of both.
pub fn group(random: &mut Random) -> Group {
    let book = random_book(random);
    let size = book.bytes.len();
    let end = random.between(MARK, size);
    let cut = &book.bytes[..end];
    let damaged = match random.below(8) {
        0 => with_rejection(random, &book),
        _ => damaged(random, &book.bytes),
    };
    // Half of the units have a number in the book, if any has.
    let unit = match (random.below(2), book.used().last()) {
        (0, Some(unit)) => *unit,
        _ => random.between(1, 32) as u8,
    };
    let which = some_type(random);
    let number = match random.below(6) {
        0 => book.next(unit) - 1,
        1 => book.next(unit) + 1,
        _ => book.next(unit),
    };
    let mut message = match random.below(8) {
        0 => rejection(random).bytes(),
        _ => numbered(Sample::any(random, which), unit, number),
    };
    let room = match random.below(4) {
        0 => random.between(0, message.len()),
        1 => message.len() - 1,
        _ => message.len() + random.between(0, 2),
    };
    match random.below(6) {
        0 => message = self::damaged(random, &message),
        1 => message.push(random.byte()),
        _ => {}
    }
    let onto = match random.below(3) {
        0 => cut,
        _ => &book.bytes[..],
    };
    let lines = vec![
        restart(book.date, cut),
        restart(book.date, &damaged),
        append(book.date, onto, room, &message),
        close(book.date, cut, random.between(0, 18)),
        listing::line(cut),
        listing::line(&damaged),
    ];
    Group {
        lines,
        book,
        end,
        damaged,
    }
}

/// A rejection before one of the book's marks and messages, or at its end: a book holds none.
fn with_rejection(random: &mut Random, book: &Made) -> Vec<u8> {
    let place = random.between(0, book.starts.len());
    let start = *book.starts.get(place).unwrap_or(&book.bytes.len());
    let (before, after) = book.bytes.split_at(start);
    [before, &rejection(random).bytes(), after].concat()
}

/// One byte changed, left out, put in, or some put at the end.
pub fn damaged(random: &mut Random, bytes: &[u8]) -> Vec<u8> {
    let mut bytes = bytes.to_vec();
    let place = random.between(0, bytes.len() - 1);
    match random.below(6) {
        0 => {
            bytes.remove(place);
        }
        1 => bytes.insert(place, random.pick(&[0, 1, 0xBA, 0xFF])),
        2 => {
            for _ in 0..random.between(1, 17) {
                bytes.push(random.pick(&[0, 0, 0, 0xBA]));
            }
        }
        3 => bytes[place] = random.byte(),
        _ => bytes[place] ^= 1 << random.below(8),
    }
    bytes
}
