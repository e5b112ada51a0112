//! States that no day leads to: numbers past the buffers and the limits, tables near their greatest
//! numbers, places inside messages, bytes that do not frame.

use super::driver::{Driver, SHOWN};
use super::last;
use super::wrong;
use crate::bench::BUFFER;
use crate::hex;
use crate::questions::bitfields::sample::{Sample, ACKNOWLEDGMENT};
use crate::questions::parts::Parts;
use crate::questions::session::sample::{Sample as Session, LOGIN, RESPONSE};
use crate::random::Random;
use crate::rules::member::Phase;
use crate::rules::table::{entry, set_entry, SIZE, UNITS};

/// The most bytes and messages of a book.
const LIMIT: u32 = 16_777_216;
const GREATEST: u32 = u32::MAX;

/// Where the number of bytes that is lent or held has its ends.
const LENGTHS: [u32; 13] = [
    0,
    15,
    16,
    17,
    57,
    400,
    BUFFER as u32 - 48,
    BUFFER as u32 - 16,
    BUFFER as u32,
    BUFFER as u32 + 1,
    LIMIT - 16,
    LIMIT,
    GREATEST,
];

/// One state of a side, and what is asked of it.
pub fn round(driver: &mut Driver) {
    driver.options = 50;
    driver.book_room = some_room(&mut driver.random);
    driver.log_room = some_room(&mut driver.random);
    driver.units = (0..driver.random.between(1, 3))
        .map(|_| driver.random.between(1, 32) as u8)
        .collect();
    if driver.one_in(2) {
        member(driver);
    } else {
        venue(driver);
    }
    if driver.one_in(5) {
        driver.books();
    }
}

fn some_room(random: &mut Random) -> usize {
    match random.below(5) {
        0 => BUFFER,
        1 => 0,
        2 => random.between(0, 200),
        _ => random.between(200, SHOWN),
    }
}

pub fn some_length(random: &mut Random) -> u32 {
    match random.below(3) {
        0 => LENGTHS[random.between(0, LENGTHS.len() - 1)],
        1 => random.between(0, 300) as u32,
        _ => random.between(0, 3_300) as u32,
    }
}

fn some_number(random: &mut Random) -> u32 {
    match random.below(6) {
        0 => 0,
        1 => GREATEST,
        2 => GREATEST - 1,
        3 => random.number(),
        _ => random.below(20) as u32,
    }
}

/// Numbers of units, at times all alike.
fn some_table(random: &mut Random) -> [u8; SIZE] {
    let mut table = [0; SIZE];
    let alike = random.below(3) == 0;
    let number = some_number(random);
    for unit in 1..=UNITS {
        let own = match random.below(4) {
            0 => some_number(random),
            _ => number,
        };
        set_entry(&mut table, unit, if alike { number } else { own });
    }
    table
}

// The member.

fn member(driver: &mut Driver) {
    if driver.lasts.below(4) == 0 {
        last::fill_book(driver);
    }
    let random = &mut driver.random;
    let phase = random.pick(&[0, 1, 1, 2, 2, 3, 3, 3]);
    let length = some_length(random);
    let last = match random.below(4) {
        0 => some_length(random),
        1 => length,
        2 => length.saturating_add(1),
        _ => length.saturating_sub(random.between(0, 60) as u32),
    };
    let count = match random.below(5) {
        0 => LIMIT,
        1 => LIMIT + 1,
        2 => some_number(random),
        _ => random.below(9) as u32,
    };
    let date = match random.below(3) {
        0 => random.number(),
        _ => 20_250_819,
    };
    let (outgoing, market) = (some_number(random), random.below(2));
    let mut table = some_table(random);
    let places = last::places(driver, &mut table);
    let line = format!(
        "m-state {} {} {} {} {} {} {} {} {}",
        phase,
        outgoing,
        market,
        date,
        length,
        last,
        count,
        hex::write(&table),
        hex::write(&places)
    );
    driver.date = date;
    driver.ask(line);
    for _ in 0..driver.lasts.between(1, 2) {
        last::ask(driver);
    }
    for _ in 0..driver.random.between(2, 6) {
        member_call(driver);
    }
}

fn member_call(driver: &mut Driver) {
    let asked = driver.bench.member.phase == Phase::Asked;
    let call = match asked && driver.one_in(2) {
        true => 11,
        false => driver.random.below(14),
    };
    match call {
        0..=4 => {
            let message = numbered(driver);
            let room = about(driver, driver.bench.member.book.length + message.len());
            let call = driver.call_for(&message);
            if driver.get_by(call, &message, room) == "0" {
                last::ask(driver);
            }
        }
        5 => {
            let room = about(driver, driver.bench.member.book.length + 16);
            driver.ask(format!("m-break {}", room));
        }
        12 => {
            let message = driver.rejection().bytes();
            let room = about(driver, driver.bench.member.book.length + message.len());
            driver.get_by("m-get", &message, room);
        }
        6 | 7 => driver.order(),
        8 => driver.beat(),
        9 => driver.login(),
        10 => {
            let size = driver.random.between(0, 400);
            let market = driver.some_market() as u8;
            driver.ask(format!("m-restart {} {} {}", driver.date, size, market));
        }
        11 => response(driver),
        _ => wrong::some(driver),
    }
    // What is sent from such a state is not carried on.
    driver.to_venue.clear();
    driver.to_member.clear();
}

/// A Login Response that is accepted, or one that ends the session.
fn response(driver: &mut Driver) {
    let mut response = Session::any(&mut driver.random, RESPONSE);
    let status = driver.random.pick(b"AND");
    *response.value("LoginResponseStatus") = vec![status];
    let bytes = response.bytes();
    let room = about(driver, driver.bench.member.book.length + 16);
    let call = driver.call_for(&bytes);
    driver.get_by(call, &bytes, room);
}

/// A message of a unit whose number is about the member's.
fn numbered(driver: &mut Driver) -> Vec<u8> {
    let mut sample = driver.booked();
    sample.unit = driver.random.between(1, 32) as u8;
    let last = entry(&driver.bench.member.book.table, sample.unit);
    let by = driver.random.pick(&[1, 1, 1, 1, 0, 2]);
    sample.number = last.wrapping_add(u32::from(by));
    sample.bytes()
}

/// A room near what a call needs, as far as the buffer has it, or the one of the round.
fn about(driver: &mut Driver, size: usize) -> usize {
    let more = driver.random.between(0, 2);
    match driver.random.below(3) {
        0 => driver.book_room,
        1 => (size + more).min(BUFFER),
        _ => size.saturating_sub(more).min(BUFFER),
    }
}

// The venue.

fn venue(driver: &mut Driver) {
    fill_log(driver);
    let random = &mut driver.random;
    let length = match random.below(2) {
        0 => some_length(random),
        _ => random.between(200, 500) as u32,
    };
    let at = some_place(random);
    let upto = match random.below(3) {
        0 => some_place(random),
        _ => at.saturating_add(random.between(0, 200) as u32),
    };
    // Half of the thresholds are low, so that of the messages some are wanted and some are not.
    let thresholds = match random.below(2) {
        0 => some_table(random),
        _ => low_table(random),
    };
    let places = last::any_places(&mut driver.lasts);
    let line = format!(
        "v-state {} {} {} {} {} {} {} {} {}",
        random.pick(&[0, 1, 1, 1, 1, 1, 1, 1]),
        random.pick(&[0, 0, 0, 1]),
        at,
        upto,
        length,
        some_number(random),
        hex::write(&thresholds),
        hex::write(&some_table(random)),
        hex::write(&places)
    );
    driver.ask(line);
    for _ in 0..driver.random.between(3, 7) {
        venue_call(driver);
    }
}

fn low_table(random: &mut Random) -> [u8; SIZE] {
    let mut table = [0; SIZE];
    for unit in 1..=UNITS {
        set_entry(&mut table, unit, random.below(2) as u32);
    }
    table
}

/// A place in the log: where messages of 48 bytes start or have a message inside, and others.
fn some_place(random: &mut Random) -> u32 {
    let start = 48 * random.between(0, 6) as u32;
    match random.below(8) {
        0 => some_length(random),
        1 => random.between(0, 300) as u32,
        2 | 3 => start + 38,
        _ => start,
    }
}

/// Some messages at the log's start, each with another message inside that ends where it ends.
fn fill_log(driver: &mut Driver) {
    if driver.one_in(3) {
        return;
    }
    let zeros = "00".repeat(SIZE);
    let start = 48 * driver.random.between(0, 3);
    let tables = [&zeros[..]; 3].join(" ");
    driver.ask(format!("v-state 0 0 0 0 {} 0 {}", start, tables));
    for _ in 0..driver.random.between(2, 4) {
        let mut sample = Sample::least(&mut driver.random, ACKNOWLEDGMENT);
        let random = &mut driver.random;
        let unit = random.pick(&[0, 1, 5, 32, 33, 255]);
        let inside = random.pick(&[0, 0, 1, 1, 2, 255]);
        let length = random.pick(&[8, 8, 8, 8, 8, 8, 7, 9]);
        let kind = random.pick(&[0x25, 0x25, 0x2C, 0x26, 0x09]);
        *sample.value("OrderID") = vec![0xBA, 0xBA, length, 0, kind, unit, inside, 0];
        *sample.value("Reserved") = vec![random.pick(&[0, 0, 0, 1])];
        sample.unit = random.between(1, 32) as u8;
        sample.number = entry(&driver.bench.venue.table, sample.unit) + 1;
        let line = format!("v-log {} {}", hex::write(&sample.bytes()), SHOWN);
        driver.ask(line);
    }
}

fn venue_call(driver: &mut Driver) {
    let length = driver.bench.venue.length;
    let call = match driver.bench.venue.running {
        true => driver.random.below(15),
        false => driver.random.between(8, 14) as u64,
    };
    match call {
        0..=9 => {
            let log_room = match driver.random.below(5) {
                0 => driver.random.between(0, length.min(BUFFER)),
                1 => driver.log_room,
                _ => BUFFER,
            };
            let room = match driver.random.below(8) {
                0 => driver.random.between(0, 48),
                _ => 80,
            };
            driver.ask(format!("v-step {} {}", log_room, room));
        }
        10 => {
            let message = match driver.one_in(4) {
                true => driver.rejection().bytes(),
                false => driver.next_message(),
            };
            let room = about(driver, length + message.len());
            driver.ask(format!("v-log {} {}", hex::write(&message), room));
        }
        11 => {
            let mut sample = driver.some_order();
            let received = driver.bench.venue.received;
            let by = driver.random.pick(&[0, 1, 1, 2, 255]);
            sample.number = received.wrapping_add(u32::from(by));
            let market = driver.bench.member.market;
            driver.venue_order(market, &sample.bytes());
        }
        12 => {
            let login = Session::any(&mut driver.random, LOGIN);
            driver.ask(format!("v-login {} 450", hex::write(&login.bytes())));
        }
        13 => driver.break_venue(),
        _ => wrong::some(driver),
    }
    driver.to_venue.clear();
    driver.to_member.clear();
}
