//! Asks questions of a bench of its own, so that it knows what each side has sent, and keeps what
//! is on the line between them.

use super::last;
use crate::ask;
use crate::bench::Bench;
use crate::hex;
use crate::questions::bitfields::sample::{orders_of, Sample};
use crate::questions::made::{rejection, some_type};
use crate::questions::parts::Parts;
use crate::questions::session::sample::{self as session, LOGIN};
use crate::random::Random;
use crate::rules::frame;
use crate::rules::groups::PAIR;
use crate::rules::market::Market;
use crate::rules::table::{entry, used, SIZE, UNITS};
use std::collections::VecDeque;

/// The books that are shown whole are no longer than this.
pub const SHOWN: usize = 3_500;

/// The calls by which the member gets what the venue sent: any message, an application message, a
/// Login Response.
pub const GETS: [&str; 3] = ["m-get", "m-message", "m-response"];

/// Something that a driver does.
pub type Step = fn(&mut Driver);

pub struct Driver {
    pub bench: Bench,
    pub random: Random,
    /// What is asked about last messages has random numbers of its own, and so leaves the days as they
    /// are.
    pub lasts: Random,
    pub lines: Vec<String>,
    /// What the venue sent and the member has not got yet, first first.
    pub to_member: VecDeque<Vec<u8>>,
    /// What the member sent.
    pub to_venue: VecDeque<Vec<u8>>,
    /// What the member got.
    pub got: Vec<Vec<u8>>,
    /// Whether the venue's session is on the line that the member has. What it sends on another
    /// line is lost, but for a few messages that come all the same.
    pub joined: bool,
    pub date: u32,
    /// The bytes of the book's buffer and of the log's that are lent on this day.
    pub book_room: usize,
    pub log_room: usize,
    /// The units that have messages on this day.
    pub units: Vec<u8>,
    /// Whether logins choose units.
    pub choices: bool,
    /// Of a hundred openings and restarts, those that name the options market.
    pub options: u64,
}

impl Driver {
    /// Begins with `new`.
    pub fn new(random: Random) -> Driver {
        let lasts = Random::new(random.clone().next());
        let mut driver = Driver {
            bench: Bench::new(),
            random,
            lasts,
            lines: Vec::new(),
            to_member: VecDeque::new(),
            to_venue: VecDeque::new(),
            got: Vec::new(),
            joined: false,
            date: 20_250_819,
            book_room: SHOWN,
            log_room: SHOWN,
            units: vec![1],
            choices: false,
            options: 0,
        };
        driver.ask("new".to_string());
        driver
    }

    /// Asks, and answers the first word of the answer.
    pub fn ask(&mut self, line: String) -> String {
        let answer = self.answer(line);
        let first = answer.split(' ').next().unwrap_or_default();
        first.to_string()
    }

    /// Asks, and answers what was written to the output buffer, if it is a message.
    pub fn ask_for_message(&mut self, line: String) -> Option<Vec<u8>> {
        let answer = self.answer(line);
        let out = hex::read(answer.rsplit(' ').next()?)?;
        let message = frame::message(&out).ok()?;
        Some(message.to_vec())
    }

    /// Now and then a question of the member is followed by one about a last message.
    fn answer(&mut self, line: String) -> String {
        let answer = ask::answer_on(&mut self.bench, line.as_bytes());
        let followed = line.starts_with("m-") && line != "m-book" && answer != "?";
        self.lines.push(line);
        if followed && self.lasts.below(10) == 0 {
            last::ask(self);
        }
        answer
    }

    /// The lines but for those about last messages.
    pub fn count(&self) -> usize {
        let other = |line: &&String| !line.starts_with("m-last ");
        self.lines.iter().filter(other).count()
    }

    /// True one time in `times`.
    pub fn one_in(&mut self, times: u64) -> bool {
        self.random.below(times) == 0
    }

    /// Takes one of the steps, each as often as its weight says.
    pub fn one_of(&mut self, steps: &[(u64, Step)]) {
        let all: u64 = steps.iter().map(|(weight, _)| weight).sum();
        let mut chosen = self.random.below(all);
        for (weight, step) in steps {
            if chosen < *weight {
                step(self);
                return;
            }
            chosen -= weight;
        }
    }

    // What goes as it should.

    pub fn open(&mut self) {
        let market = self.some_market() as u8;
        self.ask(format!(
            "m-open {} {} {}",
            self.date, self.book_room, market
        ));
        self.lose_line();
    }

    /// The market that an opening or a restart names.
    pub fn some_market(&mut self) -> Market {
        match self.random.below(100) < self.options {
            true => Market::Options,
            false => Market::Equities,
        }
    }

    /// What was on the way to the member is lost.
    pub fn lose_line(&mut self) {
        self.to_member.clear();
        self.joined = false;
    }

    /// The venue sends a message.
    pub fn send(&mut self, message: Vec<u8>) {
        if self.joined || self.one_in(8) {
            self.to_member.push_back(message);
        }
    }

    /// A message for the log: of a unit of the day, with its next number.
    pub fn next_message(&mut self) -> Vec<u8> {
        let mut sample = self.booked_today();
        let last = entry(&self.bench.venue.table, sample.unit);
        sample.number = last.wrapping_add(1);
        sample.bytes()
    }

    /// A message of one of the two types that are logged, most of them short.
    pub fn booked(&mut self) -> Sample {
        let random = &mut self.random;
        let which = some_type(random);
        if random.below(8) == 0 {
            return Sample::any(random, which);
        }
        let mut sample = Sample::least(random, which);
        for _ in 0..random.between(0, 2) {
            let listed = sample.layout.listed;
            sample.select(listed[random.between(0, listed.len() - 1)].name);
        }
        sample
    }

    /// The same of a unit of the day.
    pub fn booked_today(&mut self) -> Sample {
        let mut sample = self.booked();
        let unit = self.random.between(0, self.units.len() - 1);
        sample.unit = self.units[unit];
        sample
    }

    /// A message of one of the three types that are handed to the desk, most of them short.
    pub fn rejection(&mut self) -> Sample {
        let mut sample = rejection(&mut self.random);
        if self.random.below(4) != 0 {
            let listed = sample.layout.listed;
            sample.clear();
            if !listed.is_empty() {
                sample.select(listed[self.random.between(0, listed.len() - 1)].name);
            }
        }
        sample
    }

    /// The venue rejects something. It goes the way of what is sent: behind it, and lost with it.
    pub fn reject(&mut self) {
        let message = self.rejection().bytes();
        self.send(message);
    }

    pub fn log(&mut self) {
        let message = hex::write(&self.next_message());
        self.ask(format!("v-log {} {}", message, self.log_room));
    }

    pub fn login(&mut self) {
        let login = LoginLine::good(&mut self.random, self.choices, &self.units);
        let room = 240 + self.random.between(0, 20);
        if let Some(message) = self.ask_for_message(login.line(room)) {
            self.to_venue.push_back(message);
        }
    }

    /// The venue gets what the member sent first.
    pub fn pass(&mut self) {
        let message = match self.to_venue.pop_front() {
            Some(message) => message,
            None => return,
        };
        if message[4] != 0x37 {
            self.venue_order(self.bench.member.market, &message);
            return;
        }
        let room = 450 + self.random.between(0, 20);
        let line = format!("v-login {} {}", hex::write(&message), room);
        match self.ask_for_message(line) {
            Some(response) => {
                self.joined = true;
                self.to_member.push_back(response);
            }
            // It may be taken after the venue has seen a break.
            None if self.one_in(2) => self.to_venue.push_front(message),
            None => {}
        }
    }

    /// The venue gets what a member of a market sent.
    pub fn venue_order(&mut self, market: Market, bytes: &[u8]) {
        self.ask(format!("v-order {} {}", market as u8, hex::write(bytes)));
    }

    pub fn step(&mut self) {
        let room = match self.random.below(6) {
            0 => 400,
            _ => self.random.between(100, 260),
        };
        let line = format!("v-step {} {}", self.log_room, room);
        if let Some(message) = self.ask_for_message(line) {
            self.send(message);
        }
    }

    /// The member gets what the venue sent first.
    pub fn deliver(&mut self) {
        if let Some(message) = self.to_member.pop_front() {
            self.get(&message);
            self.got.push(message);
        }
    }

    pub fn get(&mut self, bytes: &[u8]) {
        let call = self.call_for(bytes);
        self.get_by(call, bytes, self.book_room);
    }

    /// A call that takes the type: the one for any message, or the one for its kind.
    pub fn call_for(&mut self, bytes: &[u8]) -> &'static str {
        let [any, message, response] = GETS;
        match bytes.get(4) {
            Some(0x25 | 0x2C) if self.one_in(2) => message,
            Some(0x24) if self.one_in(2) => response,
            _ => any,
        }
    }

    /// Asks by a call, and answers the first word of the answer.
    pub fn get_by(&mut self, call: &str, bytes: &[u8], room: usize) -> String {
        self.ask(format!("{} {} {}", call, hex::write(bytes), room))
    }

    /// An order of the member's market, New Orders more often than others.
    pub fn some_order(&mut self) -> Sample {
        self.order_of(self.bench.member.market)
    }

    pub fn order_of(&mut self, market: Market) -> Sample {
        let all = orders_of(market);
        let which = all[self.random.between(0, all.len()) % all.len()];
        Sample::any(&mut self.random, which)
    }

    pub fn order(&mut self) {
        let sample = self.some_order();
        let mut record = sample.record();
        if self.one_in(8) {
            let more = self.random.between(1, 20);
            record.extend(self.random.bytes(more));
        }
        let room = sample.bytes().len() + self.random.between(0, 3);
        let line = format!("m-order {} {}", hex::write(&record), room);
        if let Some(message) = self.ask_for_message(line) {
            self.to_venue.push_back(message);
        }
    }

    pub fn beat(&mut self) {
        let room = self.random.between(10, 13);
        if let Some(message) = self.ask_for_message(format!("m-beat {}", room)) {
            self.to_venue.push_back(message);
        }
    }

    /// The member sees a break: what was on the way to it is lost.
    pub fn break_member(&mut self) {
        self.ask(format!("m-break {}", self.book_room));
        self.lose_line();
    }

    /// The venue sees a break: what was on the way to it is lost, what it sent may still come.
    pub fn break_venue(&mut self) {
        self.ask("v-break".to_string());
        self.to_venue.clear();
    }

    /// The member's process starts again on its book's first bytes.
    pub fn restart(&mut self, size: usize) {
        let market = self.some_market() as u8;
        let answer = self.ask(format!("m-restart {} {} {}", self.date, size, market));
        self.lose_line();
        if answer == "22" {
            self.open();
        }
    }

    /// Both books, if they are not too long to be shown.
    pub fn books(&mut self) {
        if self.bench.member.book.length <= SHOWN {
            self.ask("m-book".to_string());
        }
        if self.bench.venue.length <= SHOWN {
            self.ask("v-book".to_string());
        }
    }

    /// Both books at the end, after states whose books can be shown.
    pub fn end(&mut self) {
        let zeros = &"00".repeat(128)[..];
        if self.bench.member.book.length > SHOWN {
            self.ask(format!("m-state 0 0 0 0 {} 0 0 {} {}", SHOWN, zeros, zeros));
        }
        if self.bench.venue.length > SHOWN {
            let tables = [zeros; 3].join(" ");
            self.ask(format!("v-state 0 0 0 0 {} 0 {}", SHOWN, tables));
        }
        self.books();
    }
}

fn all_units() -> [u8; UNITS as usize] {
    let mut units = [0; UNITS as usize];
    for (unit, place) in (1..=UNITS).zip(&mut units) {
        *place = unit;
    }
    units
}

/// Whether a question is a login of all units in their order and with flag 1.
#[cfg(test)]
pub fn is_full(question: &str) -> bool {
    question.starts_with(&format!("m-login 1 1 32 {} ", hex::write(&all_units())))
}

/// The arguments of `m-login` but for its room.
#[derive(Clone)]
pub struct LoginLine {
    pub which: u8,
    pub flag: u8,
    pub count: u8,
    pub units: [u8; 32],
    pub names: Vec<u8>,
    /// GIVEN, COUNT and BITS, twice.
    pub returned: [(bool, u8, [u8; 15]); 2],
}

impl LoginLine {
    /// One that is taken: given no choice and the full list as often, else any units or no group of them,
    /// which is more often with `choices`. The places that play no part hold anything.
    pub fn good(random: &mut Random, choices: bool, day: &[u8]) -> LoginLine {
        let mut units = all_units();
        session::shuffle(random, &mut units);
        // The units of the day come first, so that a short list has some of them.
        if random.below(2) == 0 {
            units.sort_by_key(|unit| !day.contains(unit));
        }
        let which = match random.below(if choices { 5 } else { 40 }) {
            0 => random.pick(&[2, 3, 255]),
            1 | 2 => 1,
            _ => 0,
        };
        let names = match random.below(3) {
            0 => session::Sample::least(random, LOGIN),
            _ => session::Sample::any(random, LOGIN),
        };
        let mut returned = [(false, 0, [0; 15]); 2];
        for (given, count, bits) in &mut returned {
            *given = random.below(3) == 0;
            *count = random.between(0, 15) as u8;
            for bit in bits.iter_mut() {
                *bit = random.byte();
            }
        }
        let login = LoginLine {
            which,
            flag: random.below(2) as u8,
            count: random.between(0, 32) as u8,
            units,
            names: names.fields.concat(),
            returned,
        };
        let full = random.below(2) == 0;
        if which == 0 && full {
            return login.full();
        }
        login
    }

    /// The same with no choice of units.
    pub fn short(self) -> LoginLine {
        LoginLine { which: 0, ..self }
    }

    /// The same with all units, ascending and with flag 1.
    pub fn full(self) -> LoginLine {
        LoginLine {
            which: 1,
            flag: 1,
            count: UNITS,
            units: all_units(),
            ..self
        }
    }

    /// The bytes of a good login, written from a table.
    pub fn size(&self, table: &[u8; SIZE]) -> usize {
        let of_units = match self.which {
            0 => 5 + PAIR * used(table).len(),
            1 => 5 + PAIR * usize::from(self.count),
            _ => 0,
        };
        let given = self.returned.iter().filter(|(given, _, _)| *given);
        let of_bits: usize = given.map(|(_, count, _)| 5 + usize::from(*count)).sum();
        29 + of_units + of_bits
    }

    pub fn line(&self, room: usize) -> String {
        let mut line = format!(
            "m-login {} {} {} {} {}",
            self.which,
            self.flag,
            self.count,
            hex::write(&self.units),
            hex::write(&self.names)
        );
        for (given, count, bits) in &self.returned {
            line.push_str(&format!(
                " {} {} {}",
                u8::from(*given),
                count,
                hex::write(bits)
            ));
        }
        format!("{} {}", line, room)
    }
}
