//! Day books put together by document 01 and not by the rules' own code.

use super::bitfields::sample::{Sample, ACKNOWLEDGMENT, EXECUTION, REJECTED};
use super::parts::Parts;
use crate::examples;
use crate::random::Random;

pub const DATE: u32 = 20_250_819;
pub const MARK: usize = 16;

pub fn mark(date: u32, count: u32, back: u32) -> Vec<u8> {
    let mut mark = vec![0; 4];
    for value in [date, count, back] {
        mark.extend(value.to_le_bytes());
    }
    mark
}

/// Valid as it is made.
#[derive(Clone)]
pub struct Made {
    pub date: u32,
    pub bytes: Vec<u8>,
    /// Where each mark and message starts.
    pub starts: Vec<usize>,
    pub last: usize,
    pub count: u32,
    pub entries: [u32; 33],
    /// Where each unit's last message starts.
    pub places: [u32; 33],
}

impl Made {
    pub fn new(date: u32) -> Made {
        Made {
            date,
            bytes: mark(date, 0, 0),
            starts: vec![0],
            last: 0,
            count: 0,
            entries: [0; 33],
            places: [0; 33],
        }
    }

    pub fn mark(mut self) -> Made {
        let place = self.bytes.len();
        self.bytes
            .extend(mark(self.date, self.count, (place - self.last) as u32));
        self.starts.push(place);
        self.last = place;
        self
    }

    /// Takes a message of a unit, which gets the unit's next number.
    pub fn with(mut self, mut sample: Sample, unit: u8) -> Made {
        self.entries[usize::from(unit)] += 1;
        sample.unit = unit;
        sample.number = self.entries[usize::from(unit)];
        self.places[usize::from(unit)] = self.bytes.len() as u32;
        self.starts.push(self.bytes.len());
        self.bytes.extend(sample.bytes());
        self.count += 1;
        self
    }

    pub fn next(&self, unit: u8) -> u32 {
        self.entries[usize::from(unit)] + 1
    }

    /// The book without what does not end before `end`.
    pub fn cut(&self, end: usize) -> Made {
        let ends = self.starts[1..].iter().copied().chain([self.bytes.len()]);
        let mut cut = Made::new(self.date);
        for (start, after) in self.starts.iter().copied().zip(ends).skip(1) {
            let part = &self.bytes[start..after];
            if after > end {
                break;
            }
            cut.bytes.extend(part);
            cut.starts.push(start);
            match part[0] {
                0 => cut.last = start,
                _ => {
                    let unit = usize::from(part[5]);
                    cut.count += 1;
                    cut.entries[unit] += 1;
                    cut.places[unit] = start as u32;
                }
            }
        }
        cut
    }

    /// The units that have a message.
    pub fn used(&self) -> Vec<u8> {
        (1..=32).filter(|unit| self.next(*unit) > 1).collect()
    }
}

/// All bits and all bitfields.
pub fn greatest(random: &mut Random, which: usize) -> Sample {
    let mut sample = Sample::least(random, which);
    sample.select_all();
    sample.lengthen(sample.layout.most);
    sample
}

pub fn some_type(random: &mut Random) -> usize {
    match random.below(2) {
        0 => ACKNOWLEDGMENT,
        _ => EXECUTION,
    }
}

/// A message that is handed to the desk.
pub fn rejection(random: &mut Random) -> Sample {
    let which = REJECTED[random.between(0, REJECTED.len() - 1)];
    Sample::any(random, which)
}

pub fn numbered(mut sample: Sample, unit: u8, number: u32) -> Vec<u8> {
    sample.unit = unit;
    sample.number = number;
    sample.bytes()
}

/// Document 01's example of a book, and a mark after it.
pub fn example() -> Vec<u8> {
    let mut book = mark(DATE, 0, 0);
    book.extend(examples::booked_acknowledgment());
    book.extend(mark(DATE, 1, 73));
    book
}

pub fn empty() -> Made {
    Made::new(DATE)
}

/// Marks back to back.
pub fn marks() -> Made {
    Made::new(DATE).mark().mark().mark()
}

/// The least message of both types.
pub fn both(random: &mut Random) -> Made {
    Made::new(DATE)
        .with(Sample::least(random, ACKNOWLEDGMENT), 1)
        .with(Sample::least(random, EXECUTION), 1)
        .mark()
}

/// Several units in turn, marks between them.
pub fn units(random: &mut Random) -> Made {
    Made::new(DATE)
        .with(Sample::least(random, ACKNOWLEDGMENT), 32)
        .mark()
        .mark()
        .with(Sample::least(random, ACKNOWLEDGMENT), 1)
        .with(Sample::least(random, ACKNOWLEDGMENT), 32)
        .mark()
}

pub fn random_book(random: &mut Random) -> Made {
    let date = match random.below(4) {
        0 => 19_700_101,
        1 => 20_991_231,
        _ => DATE,
    };
    let mut book = Made::new(date);
    let first = random.between(1, 32) as u8;
    let second = random.between(1, 32) as u8;
    for _ in 0..random.between(0, 4) {
        book = match random.below(3) {
            0 => book.mark(),
            _ => {
                let which = some_type(random);
                let sample = Sample::any(random, which);
                let unit = random.pick(&[first, second]);
                book.with(sample, unit)
            }
        };
    }
    book
}
