//! The last message of a unit, asked among all that is done to the member.

use super::driver::Driver;
use super::garbage::some_length;
use crate::bench::BUFFER;
use crate::questions::bitfields::sample::Sample;
use crate::questions::made::some_type;
use crate::questions::parts::Parts;
use crate::random::Random;
use crate::rules::frame;
use crate::rules::table::{entry, set_entry, used, SIZE, UNITS};

/// Numbers that are no unit.
const NO_UNITS: [u8; 5] = [0, 33, 64, 128, 255];

/// Asks about a unit that has a message, or another, or none, with enough room or not.
pub fn ask(driver: &mut Driver) {
    let unit = some_unit(driver);
    let room = some_room(driver, unit);
    driver.ask(format!("m-last {} {}", unit, room));
}

fn some_unit(driver: &mut Driver) -> u8 {
    let book = &driver.bench.member.book;
    let random = &mut driver.lasts;
    let used = used(&book.table);
    let found: Vec<u8> = used
        .iter()
        .copied()
        .filter(|unit| book.last_of(*unit, &driver.bench.book).is_ok())
        .collect();
    match random.below(10) {
        0 => random.pick(&NO_UNITS),
        1 => random.between(1, 32) as u8,
        2 => driver.units[random.between(0, driver.units.len() - 1)],
        3..=6 if !found.is_empty() => random.pick(&found),
        _ if used.is_empty() => random.between(1, 32) as u8,
        _ => random.pick(&used),
    }
}

/// Where the message ends, or the book, a little before it or after it, or anything.
fn some_room(driver: &mut Driver, unit: u8) -> usize {
    let book = &driver.bench.member.book;
    let random = &mut driver.lasts;
    let end = match book.last_of(unit, &driver.bench.book) {
        Ok((place, message)) => place + message.len(),
        Err(_) => book.length,
    };
    let room = match random.below(9) {
        0 => end.saturating_sub(1),
        1 => end.saturating_sub(random.between(1, 60)),
        2 => random.between(0, end.min(BUFFER)),
        3 => end,
        4 => end + random.between(1, 20),
        5 => BUFFER,
        6 => driver.book_room,
        _ => book.length,
    };
    room.min(BUFFER)
}

/// Places of any numbers.
pub fn any_places(random: &mut Random) -> [u8; SIZE] {
    let mut places = [0; SIZE];
    for unit in 1..=UNITS {
        let place = match random.below(5) {
            0 => 0,
            1 => u32::MAX,
            2 => random.number(),
            _ => some_length(random),
        };
        set_entry(&mut places, unit, place);
    }
    places
}

/// Any places; but most of the messages in the book's buffer get their entry, or nearly: a number or a
/// place beside theirs, another unit, or an older message of the unit.
pub fn places(driver: &mut Driver, table: &mut [u8; SIZE]) -> [u8; SIZE] {
    let random = &mut driver.lasts;
    let mut places = any_places(random);
    for (place, unit, number) in messages(&driver.bench.book) {
        let (mut unit, mut number, mut place) = (unit, number, place);
        match random.below(10) {
            0 | 1 => continue,
            2 => number = number.wrapping_add(1),
            3 => place = place.saturating_sub(random.between(1, 10) as u32),
            4 => place += 1,
            5 => unit = random.between(1, 32) as u8,
            _ => {}
        }
        set_entry(table, unit, number);
        set_entry(&mut places, unit, place);
    }
    places
}

/// Some messages in the book's buffer, from any place on, so that later states may find them.
pub fn fill_book(driver: &mut Driver) {
    let zeros = "00".repeat(SIZE);
    let start = driver.lasts.between(0, 300);
    let state = format!("m-state 2 0 0 20250819 {} 0 0", start);
    driver.ask(format!("{} {} {}", state, zeros, zeros));
    for _ in 0..driver.lasts.between(2, 4) {
        let which = some_type(&mut driver.lasts);
        let mut sample = Sample::least(&mut driver.lasts, which);
        sample.unit = driver.lasts.between(1, 32) as u8;
        sample.number = entry(&driver.bench.member.book.table, sample.unit) + 1;
        driver.get_by("m-message", &sample.bytes(), BUFFER);
    }
}

/// Place, unit and number of what frames anywhere in a buffer, also inside another message.
fn messages(buffer: &[u8]) -> Vec<(u32, u8, u32)> {
    let starts = (0..buffer.len()).filter(|start| buffer[*start] == 0xBA);
    starts
        .filter_map(|start| {
            let header = frame::header(frame::message(&buffer[start..]).ok()?);
            Some((start as u32, header.unit, header.number))
        })
        .collect()
}
