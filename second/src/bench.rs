//! The bench of scripts: a member and a venue with their buffers, kept from question to question.
//! README.md, "Scripts", has the format.

#[cfg(test)]
mod tests;

use crate::calls::found;
use crate::hex;
use crate::rules::desk::Told;
use crate::rules::login::{Choice, Login, Returned};
use crate::rules::market::{self, Market};
use crate::rules::member::{Member, Phase};
use crate::rules::table::{entry, SIZE, UNITS};
use crate::rules::venue::Venue;
use crate::rules::{told, Refusal};
use crate::words::{read_bytes, read_number, read_size, read_truth, read_u32, read_u8};

/// The bytes of the book's buffer and of the log's, and what they and every output buffer hold at
/// first.
pub const BUFFER: usize = 16_384;
const FILL: u8 = 0xFF;
/// The most bytes of an output buffer: of a login or its response, and of an order or a step.
const LOGIN_ROOM: usize = 600;
const MESSAGE_ROOM: usize = 2_100;

pub struct Bench {
    pub member: Member,
    pub book: Vec<u8>,
    pub venue: Venue,
    pub log: Vec<u8>,
}

impl Bench {
    pub fn new() -> Bench {
        Bench {
            member: Member::blank(),
            book: vec![FILL; BUFFER],
            venue: Venue::new(),
            log: vec![FILL; BUFFER],
        }
    }

    /// The answer to a script question; none for a line outside the format, which changes nothing.
    pub fn answer(&mut self, words: &[&str]) -> Option<String> {
        match words {
            ["new"] => {
                *self = Bench::new();
                Some("0".to_string())
            }
            [question, arguments @ ..] if question.starts_with("m-") => {
                self.of_member(question, arguments)
            }
            [question, arguments @ ..] if question.starts_with("v-") => {
                self.of_venue(question, arguments)
            }
            _ => None,
        }
    }

    fn of_member(&mut self, question: &str, arguments: &[&str]) -> Option<String> {
        match (question, arguments) {
            ("m-open", [date, room, market]) => {
                let (date, room) = (read_u32(date)?, read_size(room, BUFFER)?);
                let market = read_market(market)?;
                let result = self.member.open(date, &mut self.book[..room], market);
                Some(self.member_after(result))
            }
            ("m-restart", [date, size, market]) => {
                let (date, size) = (read_u32(date)?, read_size(size, BUFFER)?);
                let market = read_market(market)?;
                let result = self.member.restart(date, &self.book[..size], market);
                Some(self.member_after(result))
            }
            ("m-state", [phase, outgoing, market, date, length, last, count, table, places]) => {
                let mut member = Member::blank();
                member.phase = read_phase(phase)?;
                member.outgoing = read_u32(outgoing)?;
                member.market = read_market(market)?;
                member.book.date = read_u32(date)?;
                member.book.length = read_u32(length)? as usize;
                member.book.last = read_u32(last)? as usize;
                member.book.count = read_u32(count)?;
                member.book.table = read_bytes(table)?;
                member.book.places = read_bytes(places)?;
                self.member = member;
                Some(self.member_text())
            }
            ("m-login", [words @ .., room]) => {
                let login = read_login(words)?;
                let mut out = vec![FILL; read_size(room, LOGIN_ROOM)?];
                let result = self.member.login(&login, &mut out);
                Some(self.member_after(result) + " " + &hex::write(&out))
            }
            ("m-get", [bytes, room]) => {
                let (bytes, room) = (hex::read(bytes)?, read_size(room, BUFFER)?);
                let result = self.member.get(&bytes, &mut self.book[..room]);
                let desk = result.unwrap_or(Told::Nothing) as u8;
                Some(format!("{} {} {}", told(result), desk, self.member_text()))
            }
            ("m-message" | "m-response", [bytes, room]) => {
                let (bytes, room) = (hex::read(bytes)?, read_size(room, BUFFER)?);
                let buffer = &mut self.book[..room];
                let result = match question {
                    "m-message" => self.member.message(&bytes, buffer),
                    _ => self.member.response(&bytes, buffer),
                };
                Some(self.member_after(result))
            }
            ("m-order", [record, room]) => {
                let record = hex::read(record)?;
                let mut out = vec![FILL; read_size(room, MESSAGE_ROOM)?];
                let result = self.member.order(&record, &mut out);
                Some(self.member_after(result) + " " + &hex::write(&out))
            }
            ("m-beat", [room]) => {
                let mut out = vec![FILL; read_size(room, BUFFER)?];
                let result = self.member.beat(&mut out);
                Some(self.member_after(result) + " " + &hex::write(&out))
            }
            ("m-break", [room]) => {
                let room = read_size(room, BUFFER)?;
                self.member.broken(&mut self.book[..room]);
                Some(self.member_text())
            }
            ("m-book", []) => {
                let book = &self.member.book;
                let tables = [&book.table, &book.places];
                Some(bytes_and_tables(&self.book, book.length, tables))
            }
            ("m-last", [unit, room]) => {
                let (unit, room) = (read_u8(unit)?, read_size(room, BUFFER)?);
                Some(found(self.member.book.last_of(unit, &self.book[..room])))
            }
            _ => None,
        }
    }

    fn of_venue(&mut self, question: &str, arguments: &[&str]) -> Option<String> {
        match (question, arguments) {
            ("v-state", [running, told, at, upto, length, received, thresholds, table, places]) => {
                self.venue = Venue {
                    running: read_truth(running)?,
                    told: read_truth(told)?,
                    at: read_u32(at)? as usize,
                    upto: read_u32(upto)? as usize,
                    length: read_u32(length)? as usize,
                    received: read_u32(received)?,
                    thresholds: read_bytes(thresholds)?,
                    table: read_bytes(table)?,
                    places: read_bytes(places)?,
                };
                Some(self.venue_text())
            }
            ("v-log", [bytes, room]) => {
                let (bytes, room) = (hex::read(bytes)?, read_size(room, BUFFER)?);
                let result = self.venue.log(&bytes, &mut self.log[..room]);
                Some(self.venue_after(result))
            }
            ("v-login", [bytes, room]) => {
                let bytes = hex::read(bytes)?;
                let mut out = vec![FILL; read_size(room, LOGIN_ROOM)?];
                let result = self.venue.login(&bytes, &mut out);
                Some(self.venue_after(result) + " " + &hex::write(&out))
            }
            ("v-step", [log_room, room]) => {
                let log_room = read_size(log_room, BUFFER)?;
                let mut out = vec![FILL; read_size(room, MESSAGE_ROOM)?];
                let result = self.venue.step(&self.log[..log_room], &mut out);
                let result = result.map(|_sent| ());
                Some(self.venue_after(result) + " " + &hex::write(&out))
            }
            ("v-order", [market, bytes]) => {
                let market = read_market(market)?;
                let result = self.venue.order(market, &hex::read(bytes)?);
                Some(self.venue_after(result))
            }
            ("v-break", []) => {
                self.venue.broken();
                Some(self.venue_text())
            }
            ("v-book", []) => {
                let venue = &self.venue;
                let tables = [&venue.table, &venue.places];
                Some(bytes_and_tables(&self.log, venue.length, tables))
            }
            _ => None,
        }
    }

    /// MEMBER
    fn member_text(&self) -> String {
        let Member {
            phase,
            outgoing,
            market,
            book,
        } = &self.member;
        format!(
            "{} {} {} {} {} {} {} {} {}",
            *phase as u8,
            outgoing,
            *market as u8,
            book.date,
            book.length,
            book.last,
            book.count,
            sum(&book.table),
            sum(&book.places)
        )
    }

    /// VENUE
    fn venue_text(&self) -> String {
        let venue = &self.venue;
        format!(
            "{} {} {} {} {} {} {} {} {}",
            u8::from(venue.running),
            u8::from(venue.told),
            venue.at,
            venue.upto,
            venue.length,
            venue.received,
            sum(&venue.thresholds),
            sum(&venue.table),
            sum(&venue.places)
        )
    }

    fn member_after(&self, result: Result<(), Refusal>) -> String {
        format!("{} {}", told(result), self.member_text())
    }

    fn venue_after(&self, result: Result<(), Refusal>) -> String {
        format!("{} {}", told(result), self.venue_text())
    }
}

/// The sum of a table's numbers, or of its places.
fn sum(table: &[u8; SIZE]) -> u64 {
    (1..=UNITS).map(|unit| u64::from(entry(table, unit))).sum()
}

/// The bytes of a book or a log, its table and its places.
fn bytes_and_tables(buffer: &[u8], length: usize, tables: [&[u8; SIZE]; 2]) -> String {
    let bytes = &buffer[..length.min(buffer.len())];
    let [table, places] = tables.map(|table| hex::write(table));
    format!("{} {} {}", hex::write(bytes), table, places)
}

// Arguments.

fn read_phase(word: &str) -> Option<Phase> {
    let phases = [Phase::Closed, Phase::Asked, Phase::Replaying, Phase::Live];
    read_number(word, 3).map(|phase| phases[phase as usize])
}

fn read_market(word: &str) -> Option<Market> {
    read_number(word, 1).map(|market| market::ALL[market as usize])
}

/// All arguments of `m-login` but the last.
fn read_login(words: &[&str]) -> Option<Login> {
    match words {
        [which, flag, count, units, names, returned @ ..] if returned.len() == 6 => Some(Login {
            choice: read_choice(which, flag, count, units)?,
            names: read_bytes(names)?,
            returned: [
                read_returned(&returned[..3])?,
                read_returned(&returned[3..])?,
            ],
        }),
        _ => None,
    }
}

fn read_choice(which: &str, flag: &str, count: &str, units: &str) -> Option<Choice> {
    let (which, flag, count) = (read_u8(which)?, read_u8(flag)?, read_u8(count)?);
    let units = read_bytes(units)?;
    Some(match which {
        0 => Choice::Used,
        1 => Choice::Listed { flag, count, units },
        _ => Choice::Without,
    })
}

/// GIVEN, COUNT and BITS. What is not given plays no part, but its words must be in the format.
fn read_returned(words: &[&str]) -> Option<Option<Returned>> {
    let given = read_truth(words[0])?;
    let returned = Returned {
        count: read_u8(words[1])?,
        bits: read_bytes(words[2])?,
    };
    Some(given.then_some(returned))
}
