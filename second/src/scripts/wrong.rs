//! Calls that are refused, or nearly: damaged and foreign messages, wrong phases, short buffers.

use super::driver::{Driver, LoginLine, Step, GETS, SHOWN};
use crate::examples;
use crate::hex;
use crate::questions::bitfields::late::careless;
use crate::questions::bitfields::sample::{
    Sample, ACKNOWLEDGMENT, CANCEL_REJECTED, EXECUTION, MODIFY, NEW_ORDERS, PURGE,
};
use crate::questions::book::damaged;
use crate::questions::parts::Parts;
use crate::questions::session::sample::{
    Sample as Session, CLIENT_HEARTBEAT, LOGIN, LOGOUT, REPLAY_COMPLETE, RESPONSE, SERVER_HEARTBEAT,
};
use crate::rules::member::Phase;
use crate::rules::record::SIZE;
use crate::rules::table::entry;

/// A call, most often one that its phase takes, so that it is refused for something else.
pub fn some(driver: &mut Driver) {
    let member = driver.bench.member.phase;
    let venue = driver.bench.venue.running;
    let open = member != Phase::Closed;
    let passing = matches!(member, Phase::Replaying | Phase::Live);
    let live = member == Phase::Live;
    let calls: [(bool, u64, Step); 12] = [
        (open, 5, get_damaged),
        (open, 2, get_any),
        (passing, 2, get_numbered),
        (passing, 2, get_short),
        (true, 1, open_or_restart),
        (!open, 4, login),
        (live, 6, order),
        (passing, 1, beat_or_break),
        (true, 2, log),
        (!venue, 5, take_login),
        (venue, 2, step),
        (venue, 4, take_order),
    ];
    let any = driver.one_in(10);
    let fitting: Vec<(u64, Step)> = calls
        .into_iter()
        .filter(|(fits, _, _)| *fits || any)
        .map(|(_, weight, call)| (weight, call))
        .collect();
    driver.one_of(&fitting);
}

/// A size for a buffer that is too short for `size` bytes, mostly by a little.
fn short(driver: &mut Driver, size: usize) -> usize {
    match driver.random.below(3) {
        0 => driver.random.between(0, size),
        _ => size.saturating_sub(1),
    }
}

/// A message that the venue logs, damaged where the rules look.
fn damaged_booked(driver: &mut Driver) -> Vec<u8> {
    let mut sample = driver.booked_today();
    sample.number = entry(&driver.bench.member.book.table, sample.unit).wrapping_add(1);
    sample.damaged(&mut driver.random).1
}

fn any_of_the_session(driver: &mut Driver, types: &[usize]) -> Session {
    let which = types[driver.random.between(0, types.len() - 1)];
    Session::any(&mut driver.random, which)
}

const OF_THE_VENUE: [usize; 4] = [RESPONSE, LOGOUT, SERVER_HEARTBEAT, REPLAY_COMPLETE];

// The member's side.

/// By a call that takes the type, or by any of the three.
fn get(driver: &mut Driver, bytes: &[u8], room: usize) {
    let call = match driver.random.below(3) {
        0 => GETS[driver.random.between(0, GETS.len() - 1)],
        _ => driver.call_for(bytes),
    };
    driver.get_by(call, bytes, room);
}

fn get_damaged(driver: &mut Driver) {
    let bytes = match (driver.random.below(4), driver.to_member.front()) {
        (0, Some(next)) => {
            let next = next.clone();
            damaged(&mut driver.random, &next)
        }
        (1, _) => {
            let sample = any_of_the_session(driver, &OF_THE_VENUE);
            sample.damaged(&mut driver.random).1
        }
        (2, _) => {
            let sample = driver.rejection();
            sample.damaged(&mut driver.random).1
        }
        _ => damaged_booked(driver),
    };
    get(driver, &bytes, driver.book_room);
}

/// Any type of either direction, whatever the phase.
fn get_any(driver: &mut Driver) {
    let bytes = match driver.random.below(5) {
        0 => driver.some_order().bytes(),
        1 => driver.booked().bytes(),
        2 => any_of_the_session(driver, &[LOGIN, CLIENT_HEARTBEAT]).bytes(),
        3 => driver.rejection().bytes(),
        _ => any_of_the_session(driver, &OF_THE_VENUE).bytes(),
    };
    get(driver, &bytes, driver.book_room);
}

/// A good message whose number is not the next, or is; at times another message follows it.
fn get_numbered(driver: &mut Driver) {
    let mut sample = driver.booked_today();
    let last = entry(&driver.bench.member.book.table, sample.unit);
    let by = driver.random.pick(&[0, 0, 1, 2, 2, 3]);
    sample.number = match driver.random.below(8) {
        0 => 0,
        1 => u32::MAX,
        _ => last.wrapping_add(u32::from(by)),
    };
    let mut bytes = sample.bytes();
    if driver.one_in(6) {
        bytes.extend(driver.booked().bytes());
    }
    get(driver, &bytes, driver.book_room);
}

/// The next message, or one like it, with a short buffer.
fn get_short(driver: &mut Driver) {
    let next = match driver.to_member.front() {
        Some(message) if driver.random.below(4) != 0 => message.clone(),
        _ => driver.next_message(),
    };
    let size = driver.bench.member.book.length + next.len();
    let room = short(driver, size.min(SHOWN));
    get(driver, &next, room);
}

fn open_or_restart(driver: &mut Driver) {
    let date = driver.date;
    let length = driver.bench.member.book.length.min(SHOWN);
    let no_day = [0, 20_250_229, 20_991_232, u32::MAX][driver.random.between(0, 3)];
    let call = match driver.random.below(6) {
        0 => format!("m-open {} {}", no_day, driver.random.between(0, 40)),
        1 => format!("m-open {} {}", date, short(driver, 16).min(15)),
        2 => format!("m-restart {} {}", no_day, driver.random.between(0, length)),
        3 => format!(
            "m-restart {} {}",
            20_000_101,
            driver.random.between(0, length)
        ),
        4 => format!("m-restart {} {}", date, short(driver, 16).min(15)),
        // What follows the book in its buffer is not of it.
        _ => {
            let size = length + driver.random.between(1, 70);
            format!("m-restart {} {}", date, size.min(SHOWN))
        }
    };
    // Refused, it leaves the market as it was.
    let market = driver.random.below(2);
    if driver.ask(format!("{} {}", call, market)) == "0" {
        driver.lose_line();
    }
}

fn login(driver: &mut Driver) {
    let mut login = LoginLine::good(&mut driver.random, true, &driver.units);
    let random = &mut driver.random;
    let mut room = 250;
    match random.below(9) {
        0 => {
            let place = random.between(0, 17);
            login.names[place] = random.pick(b"!@ \x7F\xFF-");
        }
        1 => login.names = [&b"AB\0C"[..], &login.names[4..]].concat(),
        2 => (login.which, login.flag) = (1, random.pick(&[2, 3, 128, 255])),
        3 => (login.which, login.count) = (1, random.pick(&[33, 34, 64, 255])),
        4 => {
            let place = random.between(0, 31);
            login.units[place] = random.pick(&[0, 33, 64, 255]);
            (login.which, login.count) = (1, 32);
        }
        5 => {
            let (place, other) = (random.between(0, 30), random.between(1, 31));
            login.units[place] = login.units[(place + other) % 32];
            (login.which, login.count) = (1, 32);
        }
        6 => {
            let index = random.between(0, 1);
            login.returned[index].0 = true;
            login.returned[index].1 = random.pick(&[16, 17, 32, 255]);
        }
        7 => room = random.between(0, 60),
        _ => {}
    }
    if random.below(6) == 0 {
        room = random.between(0, 200);
    }
    if let Some(message) = driver.ask_for_message(login.line(room)) {
        driver.to_venue.push_back(message);
    }
}

/// A Modify Order or a Purge Orders whose values may ask for what is not there.
fn asking(driver: &mut Driver) -> Sample {
    let which = [MODIFY, PURGE, PURGE][driver.random.between(0, 2)];
    let sample = Sample::any(&mut driver.random, which);
    careless(&mut driver.random, &sample)
}

fn order(driver: &mut Driver) {
    let sample = driver.some_order();
    let size = sample.bytes().len();
    let (record, room) = match driver.random.below(12) {
        0 => (
            sample.record()[..driver.random.between(0, SIZE - 1)].to_vec(),
            size,
        ),
        1 => {
            let mut record = sample.record();
            let types = [0x37, 0x03, 0x25, 0x26, 0x2C, 0, 0x3B, 0x38, 0xB8];
            record[0] = driver.random.pick(&types);
            (record, size)
        }
        2 => (sample.record(), short(driver, size)),
        3 | 4 => {
            let careless = asking(driver);
            (careless.record(), careless.bytes().len())
        }
        5 => {
            let foreign = driver.order_of(driver.bench.member.market.other());
            (foreign.record(), foreign.bytes().len())
        }
        _ => {
            let (_, record, _) = sample.damaged_record(&mut driver.random);
            let end = record.len().min(SIZE + 5);
            (record[..end].to_vec(), size + 8)
        }
    };
    let line = format!("m-order {} {}", hex::write(&record), room);
    if let Some(message) = driver.ask_for_message(line) {
        driver.to_venue.push_back(message);
    }
}

fn beat_or_break(driver: &mut Driver) {
    if driver.one_in(2) {
        let room = driver.random.between(0, 10);
        driver.ask(format!("m-beat {}", room));
        return;
    }
    let size = driver.bench.member.book.length + 16;
    let room = short(driver, size.min(SHOWN));
    driver.ask(format!("m-break {}", room));
    driver.lose_line();
}

// The venue's side.

fn log(driver: &mut Driver) {
    let (bytes, room) = match driver.random.below(5) {
        0 => {
            let bytes = driver.next_message();
            let size = driver.bench.venue.length + bytes.len();
            (bytes, short(driver, size.min(SHOWN)))
        }
        1 => {
            let mut sample = driver.booked();
            sample.unit = driver.units[0];
            let last = entry(&driver.bench.venue.table, sample.unit);
            sample.number = match driver.random.below(4) {
                0 => last,
                1 => 0,
                2 => u32::MAX,
                _ => last.wrapping_add(2),
            };
            (sample.bytes(), driver.log_room)
        }
        2 => {
            let strangers = [
                examples::server_heartbeat(),
                examples::new_order(),
                examples::login(),
                examples::replay_complete(),
                examples::logout_request(),
                examples::modify(),
                examples::purge_by_ids_with_its_length(),
                driver.rejection().bytes(),
                driver.rejection().bytes(),
            ];
            let index = driver.random.between(0, strangers.len() - 1);
            (strangers[index].clone(), driver.log_room)
        }
        _ => {
            let mut sample = driver.booked();
            sample.unit = driver.units[0];
            let last = entry(&driver.bench.venue.table, sample.unit);
            sample.number = last.wrapping_add(1);
            let bytes = sample.damaged(&mut driver.random).1;
            (bytes, driver.log_room)
        }
    };
    driver.ask(format!("v-log {} {}", hex::write(&bytes), room));
}

fn take_login(driver: &mut Driver) {
    let sample = Session::any(&mut driver.random, LOGIN);
    let mut room = 460;
    let bytes = match driver.random.below(6) {
        0 => {
            room = short(driver, 238);
            sample.bytes()
        }
        1 => driver.some_order().bytes(),
        2 => examples::client_heartbeat(),
        3 => match driver.to_venue.front() {
            Some(next) => {
                let next = next.clone();
                damaged(&mut driver.random, &next)
            }
            None => examples::login()[..20].to_vec(),
        },
        _ => sample.damaged(&mut driver.random).1,
    };
    let line = format!("v-login {} {}", hex::write(&bytes), room);
    // A login that is taken is none of the member's: its answer goes nowhere.
    if driver.ask(line) == "0" {
        driver.joined = false;
    }
}

fn step(driver: &mut Driver) {
    let length = driver.bench.venue.length.min(SHOWN);
    let (log_room, room) = match driver.random.below(4) {
        0 => (driver.log_room, driver.random.between(0, 9)),
        1 => (driver.random.between(0, length), 260),
        2 => (driver.log_room, driver.random.between(10, 60)),
        _ => (
            driver.random.between(0, length),
            driver.random.between(0, 60),
        ),
    };
    let line = format!("v-step {} {}", log_room, room);
    if let Some(message) = driver.ask_for_message(line) {
        driver.send(message);
    }
}

fn take_order(driver: &mut Driver) {
    let received = driver.bench.venue.received;
    let mut sample = driver.some_order();
    let market = match driver.random.below(6) {
        0 => driver.bench.member.market.other(),
        _ => driver.bench.member.market,
    };
    let bytes = match driver.random.below(7) {
        0 => {
            sample.number = match driver.random.below(5) {
                0 => 0,
                1 => received,
                2 => received.saturating_sub(1),
                3 => received.saturating_add(driver.random.below(5) as u32),
                _ => received.saturating_add(1),
            };
            sample.bytes()
        }
        1 => {
            let which = [LOGIN, CLIENT_HEARTBEAT][driver.random.between(0, 1)];
            Session::any(&mut driver.random, which).bytes()
        }
        2 => {
            let which = [ACKNOWLEDGMENT, EXECUTION, CANCEL_REJECTED];
            let which = which[driver.random.between(0, which.len() - 1)];
            Sample::least(&mut driver.random, which).bytes()
        }
        3 => {
            let mut careless = asking(driver);
            careless.number = received.saturating_add(1);
            careless.bytes()
        }
        4 => {
            // A New Order of either market, or with the type of a record.
            let which = NEW_ORDERS[driver.random.between(0, 1)];
            sample = Sample::any(&mut driver.random, which);
            sample.number = received.saturating_add(1);
            let mut bytes = sample.bytes();
            bytes[4] = driver.random.pick(&[0x38, 0x38, 0xB8]);
            bytes
        }
        _ => {
            sample.number = received.saturating_add(1);
            sample.damaged(&mut driver.random).1
        }
    };
    driver.venue_order(market, &bytes);
}
