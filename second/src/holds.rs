//! Whether a day book holds what a venue's log has. README.md, "A book and a log", says what is asked.
//!
//! Messages are compared unit by unit. Those of one unit stand in the order of their numbers in both files,
//! since both are refused otherwise; how the units are mixed may differ, and is not looked at.

#[cfg(test)]
mod tests;

use crate::rules::book::{self, Part, LIMIT};
use crate::rules::table::UNITS;
use crate::rules::venue::Venue;
use crate::rules::{frame, Refusal};
use crate::words;
use std::cmp::Ordering;
use std::fmt;

/// The digits of YYYYMMDD.
const DATE_DIGITS: usize = 8;

// The exit statuses.
const SAME: u8 = 0;
const OTHER: u8 = 1;
const FIRST_PART: u8 = 3;

/// What is printed, and the exit status after it.
#[derive(Debug, PartialEq, Eq)]
pub struct Answer {
    pub lines: Vec<String>,
    pub status: u8,
}

/// DATE. None for what is not eight digits; whether they are a day is for the restart to say.
pub fn read_date(word: &str) -> Option<u32> {
    words::read_u32(word).filter(|_| word.len() == DATE_DIGITS)
}

/// Of the bytes of both files. The log of a book that is refused is not looked at.
pub fn answer(date: u32, book: &[u8], log: &[u8]) -> Answer {
    let both = booked(date, book).and_then(|book| Ok((book, logged(log)?)));
    match both {
        Ok((book, log)) => compared(&book, &log),
        Err(line) => Answer {
            lines: vec![line],
            status: OTHER,
        },
    }
}

/// The messages of each unit in their order, those of unit 1 first.
struct Messages<'a>(Vec<Vec<&'a [u8]>>);

impl<'a> Messages<'a> {
    fn new() -> Messages<'a> {
        Messages(vec![Vec::new(); usize::from(UNITS)])
    }

    /// Adds a message that a book takes, whose unit is 1 to 32.
    fn add(&mut self, message: &'a [u8]) {
        let unit = usize::from(frame::header(message).unit);
        self.0[unit - 1].push(message);
    }

    fn count(&self) -> usize {
        self.0.iter().map(Vec::len).sum()
    }

    /// How many units have messages.
    fn units(&self) -> usize {
        self.0.iter().filter(|unit| !unit.is_empty()).count()
    }
}

/// What the book holds, or the line that tells what restart refuses it for. A book that restart takes
/// has no fault when it is passed over again for its messages.
fn booked(date: u32, bytes: &[u8]) -> Result<Messages<'_>, String> {
    let refused = |refusal: Refusal| format!("book: {}", refusal);
    book::restart(date, bytes).map_err(refused)?;
    let mut book = book::first(bytes).map_err(refused)?;
    let mut messages = Messages::new();
    loop {
        match book.pass(bytes).map_err(refused)? {
            Part::Message(message) => messages.add(message),
            Part::Mark { .. } => {}
            Part::Tail(_) => return Ok(messages),
        }
    }
}

/// What the log holds, or the line that tells its first fault and where that starts in the file. A venue
/// logs the messages anew, so that a fault is what it refuses: the reader's, 14, 15, 13. As in a book a
/// torn tail may not pass the limit either.
fn logged(bytes: &[u8]) -> Result<Messages<'_>, String> {
    let mut venue = Venue::new();
    let mut buffer = vec![0; bytes.len()];
    let mut messages = Messages::new();
    loop {
        let start = venue.length;
        let refused = |refusal: Refusal| format!("log: {} at {}", refusal, start);
        let rest = &bytes[start..];
        if frame::message(rest) == Err(Refusal::Partial) {
            return match bytes.len() <= LIMIT {
                true => Ok(messages),
                false => Err(refused(Refusal::Room)),
            };
        }
        venue.log(rest, &mut buffer).map_err(refused)?;
        messages.add(&bytes[start..venue.length]);
    }
}

/// A line for each unit that differs, and a last one that says what they come to.
fn compared(book: &Messages, log: &Messages) -> Answer {
    let differences = differences(book, log);
    let line = |(unit, difference): &(u8, Difference)| format!("unit {}: {}", unit, difference);
    let mut lines: Vec<String> = differences.iter().map(line).collect();
    let only_parts = differences.iter().all(|(_, found)| found.is_part());
    let (held, all) = (book.count(), log.count());
    let (last, status) = if differences.is_empty() {
        let units = book.units();
        let last = format!("the same: {} messages of {} units", held, units);
        (last, SAME)
    } else if only_parts {
        let last = format!("a first part: {} of {} messages", held, all);
        (last, FIRST_PART)
    } else {
        ("other messages".to_string(), OTHER)
    };
    lines.push(last);
    Answer { lines, status }
}

/// The units that differ, ascending.
fn differences(book: &Messages, log: &Messages) -> Vec<(u8, Difference)> {
    let both = book.0.iter().zip(&log.0);
    let units = (1..=UNITS).zip(both);
    units
        .filter_map(|(unit, (book, log))| Some((unit, difference(book, log)?)))
        .collect()
}

/// Where the messages of a unit in the book first differ from those in the log.
enum Difference {
    /// The book has a first part of the log's.
    Part { book: usize, log: usize },
    /// Both have a message of this number, and not the same.
    Message(usize),
    /// The book has all of the log's and more.
    More { book: usize, log: usize },
}

/// The first difference of a unit, if there is one. The first message of a unit has number 1.
fn difference(book: &[&[u8]], log: &[&[u8]]) -> Option<Difference> {
    let unlike = book.iter().zip(log).position(|(book, log)| book != log);
    let (book, log) = (book.len(), log.len());
    match (unlike, book.cmp(&log)) {
        (Some(place), _) => Some(Difference::Message(place + 1)),
        (None, Ordering::Less) => Some(Difference::Part { book, log }),
        (None, Ordering::Equal) => None,
        (None, Ordering::Greater) => Some(Difference::More { book, log }),
    }
}

impl Difference {
    fn is_part(&self) -> bool {
        matches!(self, Difference::Part { .. })
    }
}

/// The line of a unit, without the unit.
impl fmt::Display for Difference {
    fn fmt(&self, text: &mut fmt::Formatter) -> fmt::Result {
        match self {
            Difference::Part { book, log } => write!(text, "the book has {} of {}", book, log),
            Difference::Message(number) => write!(text, "message {} differs", number),
            Difference::More { book, log } => {
                write!(text, "the book has {}, the log {}", book, log)
            }
        }
    }
}
