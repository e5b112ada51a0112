//! The questions that keep no state: a call of the proved core, its arguments and its answer.
//! README.md, "The format", has the table of them.

use crate::hex;
use crate::rules::desk::Told;
use crate::rules::kinds::{self, Kind};
use crate::rules::{
    book, calendar, frame, listing, number, price, pulse, read, table, told, write, Refusal,
};
use crate::words::{read_bytes, read_number, read_size, read_u32, read_u8};

/// The most bytes that `append` and `close` add to a book's buffer, and what they hold.
const MOST_ROOM: usize = 2_100;
const ROOM_BYTE: u8 = 0xFF;

/// None for words outside the format.
pub fn answer(words: &[&str]) -> Option<String> {
    match words {
        ["frame", bytes] => Some(frame(&hex::read(bytes)?)),
        ["get", width, bytes, at] => {
            let width = read_width(width)?;
            let bytes = hex::read(bytes)?;
            let at = read_number(at, u64::MAX)?;
            Some(number::get(&bytes, at, width).to_string())
        }
        ["put", width, bytes, at, value] => {
            let width = read_width(width)?;
            let mut buffer = hex::read(bytes)?;
            let at = read_number(at, u64::MAX)?;
            let value = read_number(value, greatest(width))?;
            let result = number::put(&mut buffer, at, width, value);
            Some(with_buffer(result, &buffer))
        }
        ["price", bytes] => Some(price::text(price::value(read_bytes(bytes)?))),
        ["kind", kind, bytes] => {
            let kind = Kind::of_letter(kind)?;
            Some(truth(kinds::agrees(kind, &hex::read(bytes)?)))
        }
        ["filled", kind, bytes] => {
            let kind = Kind::of_letter(kind)?;
            Some(truth(kinds::filled(kind, &hex::read(bytes)?)))
        }
        ["step", bytes, unit, number] => {
            let mut buffer = hex::read(bytes)?;
            let result = table::step(&mut buffer, read_u8(unit)?, read_u32(number)?);
            Some(with_buffer(result, &buffer))
        }
        ["day", date] => Some(told(calendar::check(read_u32(date)?))),
        ["year", year] => Some(year_of_days(read_number(year, 9_999)? as u32)),
        ["due", now, then] => Some(truth(pulse::due(read_u32(now)?, read_u32(then)?))),
        ["silent", now, then] => Some(truth(pulse::silent(read_u32(now)?, read_u32(then)?))),
        ["read", direction, bytes] => {
            let result = read::message(read_u8(direction)?, &hex::read(bytes)?);
            Some(answered(result.map(|record| hex::write(&record))))
        }
        ["read-into", direction, bytes, buffer] => {
            let (direction, bytes) = (read_u8(direction)?, hex::read(bytes)?);
            let mut buffer = hex::read(buffer)?;
            let result = read::into(direction, &bytes, &mut buffer);
            Some(with_buffer(result, &buffer))
        }
        ["write", direction, record, bytes] => {
            let (direction, record) = (read_u8(direction)?, hex::read(record)?);
            let mut buffer = hex::read(bytes)?;
            let result = write::record(direction, &record, &mut buffer);
            Some(with_buffer(result, &buffer))
        }
        ["open", date, bytes] => {
            let mut buffer = hex::read(bytes)?;
            let result = book::open(read_u32(date)?, &mut buffer);
            Some(with_buffer(result, &buffer))
        }
        ["restart", date, bytes] => Some(restart(read_u32(date)?, &hex::read(bytes)?)),
        ["append", date, bytes, room, message] => {
            let (date, bytes) = (read_u32(date)?, hex::read(bytes)?);
            let room = read_size(room, MOST_ROOM)?;
            Some(append(date, bytes, room, &hex::read(message)?))
        }
        ["close", date, bytes, room] => {
            let (date, bytes) = (read_u32(date)?, hex::read(bytes)?);
            Some(close(date, bytes, read_size(room, MOST_ROOM)?))
        }
        ["last", date, unit, bytes] => {
            let (date, unit) = (read_u32(date)?, read_u8(unit)?);
            Some(last(date, unit, &hex::read(bytes)?))
        }
        ["last-state", state, unit, bytes] => {
            let (state, unit) = (hex::read(state)?, read_u8(unit)?);
            let bytes = hex::read(bytes)?;
            Some(found(book::last_of_state(&state, unit, &bytes)))
        }
        ["last-line", unit, bytes] => {
            let lines = listing::last_lines(read_u8(unit)?, &hex::read(bytes)?);
            Some(lines.join("|"))
        }
        ["told", type_byte] => Some((Told::of(read_u8(type_byte)?) as u8).to_string()),
        ["list", bytes] => Some(listing::lines(&hex::read(bytes)?).join("|")),
        _ => None,
    }
}

// Arguments.

fn read_width(word: &str) -> Option<u64> {
    read_number(word, 8).filter(|width| [2, 4, 8].contains(width))
}

/// The greatest value that `width` bytes hold.
fn greatest(width: u64) -> u64 {
    ((1_u128 << (8 * width)) - 1) as u64
}

// Answers.

fn truth(yes: bool) -> String {
    u8::from(yes).to_string()
}

/// A refusal alone, or 0 and what the call answers.
fn answered(result: Result<String, Refusal>) -> String {
    match result {
        Ok(text) => format!("0 {}", text),
        Err(refusal) => refusal.to_string(),
    }
}

/// The refusal or 0, and the buffer after the call.
fn with_buffer(result: Result<(), Refusal>, buffer: &[u8]) -> String {
    format!("{} {}", told(result), hex::write(buffer))
}

fn frame(buffer: &[u8]) -> String {
    answered(frame::message(buffer).map(|message| {
        let header = frame::header(message);
        format!(
            "{} {} {} {}",
            message.len(),
            header.type_byte,
            header.unit,
            header.number
        )
    }))
}

/// Months and days go past both their ends, so that what is no day is asked too.
fn year_of_days(year: u32) -> String {
    let mut text = String::new();
    for month in 0..=13 {
        for day in 0..=32 {
            let date = year * 10_000 + month * 100 + day;
            text.push_str(&truth(calendar::check(date).is_ok()));
        }
    }
    text
}

fn restart(date: u32, bytes: &[u8]) -> String {
    answered(book::restart(date, bytes).map(|book| {
        format!(
            "{} {} {} {} {}",
            book.length,
            book.last,
            book.count,
            hex::write(&book.table),
            hex::write(&book.places)
        )
    }))
}

fn last(date: u32, unit: u8, bytes: &[u8]) -> String {
    answered(book::restart(date, bytes).map(|book| found(book.last_of(unit, bytes))))
}

/// A refusal or 0, and the place and the message that were asked for; of a refusal 0 and no bytes.
pub fn found(result: Result<(usize, &[u8]), Refusal>) -> String {
    let (place, message) = result.unwrap_or_default();
    format!("{} {} {}", told(result), place, hex::write(message))
}

fn append(date: u32, bytes: Vec<u8>, room: usize, message: &[u8]) -> String {
    answered(book::restart(date, &bytes).map(|mut book| {
        let mut buffer = with_room(bytes, room);
        let result = book.append(&mut buffer, message);
        format!("{} {} {}", told(result), book.length, hex::write(&buffer))
    }))
}

fn close(date: u32, bytes: Vec<u8>, room: usize) -> String {
    answered(book::restart(date, &bytes).map(|mut book| {
        let mut buffer = with_room(bytes, room);
        book.close(&mut buffer);
        format!("{} {}", book.length, hex::write(&buffer))
    }))
}

fn with_room(mut bytes: Vec<u8>, room: usize) -> Vec<u8> {
    bytes.resize(bytes.len() + room, ROOM_BYTE);
    bytes
}
