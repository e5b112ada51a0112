//! Days as they happen: a venue that logs, a member that logs in, replays, lines that break, a
//! process that starts again on what is left of its book.

use super::driver::{Driver, Step};
use super::wrong;
use crate::examples;
use crate::questions::parts::Parts;
use crate::questions::session::sample::{Sample, LOGOUT, RESPONSE};
use crate::rules::member::Phase;

/// What the days of a script are like.
#[derive(Clone, Copy, Debug)]
pub struct Days {
    /// The least and the most bytes that are lent of the book's buffer and of the log's.
    pub book_room: (usize, usize),
    pub log_room: (usize, usize),
    /// The most units that have messages.
    pub units: usize,
    /// The least and the most steps.
    pub steps: (usize, usize),
    /// Of a hundred steps, those that disturb the session, and those that are wrong.
    pub disturbed: u64,
    pub wrong: u64,
    /// Whether logins choose units.
    pub choices: bool,
    /// Of a hundred openings and restarts, those that name the options market.
    pub options: u64,
}

const DATES: [u32; 5] = [20_250_819, 20_240_229, 19_700_101, 20_991_231, 20_250_820];
/// Statuses other than A, one of them blank.
const REJECTED: &[u8] = b"\0aDNFIQBE0";

/// One day: the book is opened, and the venue's log begins afresh.
pub fn day(driver: &mut Driver, days: &Days) {
    driver.date = DATES[driver.random.between(0, DATES.len() - 1)];
    driver.book_room = driver.random.between(days.book_room.0, days.book_room.1);
    driver.log_room = driver.random.between(days.log_room.0, days.log_room.1);
    driver.units = (0..driver.random.between(1, days.units))
        .map(|_| driver.random.between(1, 32) as u8)
        .collect();
    driver.choices = days.choices;
    driver.options = days.options;
    if driver.count() > 1 {
        driver.books();
        let zeros = "00".repeat(128);
        let blank = format!("v-state 0 0 0 0 0 0 {} {} {}", zeros, zeros, zeros);
        driver.ask(blank);
        driver.to_venue.clear();
    }
    driver.open();
    for _ in 0..driver.random.between(0, 4) {
        driver.log();
    }
    if driver.one_in(2) {
        twice_broken(driver);
    }
    for _ in 0..driver.random.between(days.steps.0, days.steps.1) {
        let kind = driver.random.below(100);
        if kind < days.disturbed {
            disturb(driver);
        } else if kind < days.disturbed + days.wrong {
            wrong::some(driver);
        } else {
            proceed(driver);
        }
    }
}

/// A step that the state of both sides leads to.
fn proceed(driver: &mut Driver) {
    let member = driver.bench.member.phase;
    let venue = driver.bench.venue.running;
    let (lost, idle) = (driver.to_venue.is_empty(), driver.to_member.is_empty());
    let mut steps: Vec<(u64, Step)> = vec![(3, Driver::log)];
    match member {
        Phase::Closed => steps.push((9, Driver::login)),
        Phase::Asked if lost && idle => steps.push((5, Driver::break_member)),
        Phase::Asked => {}
        Phase::Replaying => steps.push((1, Driver::beat)),
        Phase::Live => steps.extend([(4, Driver::order as Step), (1, Driver::beat)]),
    }
    if !lost {
        steps.push((10, Driver::pass));
    }
    if !idle {
        steps.push((14, Driver::deliver));
    }
    if venue {
        steps.extend([
            (8, Driver::step as Step),
            (1, server_beat),
            (1, Driver::reject),
        ]);
        // A session that the member's new line is not part of.
        if member == Phase::Closed || (member == Phase::Asked && idle) {
            steps.push((9, Driver::break_venue));
        }
    } else if idle && matches!(member, Phase::Replaying | Phase::Live) {
        steps.push((4, Driver::break_member));
    }
    driver.one_of(&steps);
}

fn server_beat(driver: &mut Driver) {
    driver.send(examples::server_heartbeat());
    driver.deliver();
}

/// What ends a session or loses something.
fn disturb(driver: &mut Driver) {
    match driver.random.below(12) {
        0 | 1 => driver.break_member(),
        2 | 3 => driver.break_venue(),
        4 => {
            driver.break_venue();
            driver.break_member();
        }
        5 => logout(driver),
        6 => rejected(driver),
        7 => {
            // Lost on the way.
            driver.to_member.pop_front();
            driver.deliver();
        }
        8 => again(driver),
        9 => driver.restart(driver.bench.member.book.length),
        _ => cut(driver),
    }
}

/// The venue says Logout and ends its session.
fn logout(driver: &mut Driver) {
    let message = Sample::any(&mut driver.random, LOGOUT);
    driver.send(message.bytes());
    driver.break_venue();
    while !driver.to_member.is_empty() && !driver.one_in(6) {
        driver.deliver();
    }
}

/// A login that is answered with another status than A, by a venue that is not the bench's.
fn rejected(driver: &mut Driver) {
    if driver.bench.member.phase == Phase::Closed {
        driver.login();
    }
    let mut response = Sample::any(&mut driver.random, RESPONSE);
    let status = driver.random.pick(REJECTED);
    *response.value("LoginResponseStatus") = vec![status];
    driver.to_venue.clear();
    driver.get(&response.bytes());
}

/// What the member got comes again.
fn again(driver: &mut Driver) {
    if !driver.got.is_empty() {
        let index = driver.random.between(0, driver.got.len() - 1);
        let message = driver.got[index].clone();
        driver.get(&message);
    }
}

/// The process stops and what was written last is cut anywhere.
fn cut(driver: &mut Driver) {
    let length = driver.bench.member.book.length;
    let size = match driver.random.below(8) {
        0 => driver.random.between(0, 16.min(length)),
        1 => driver.random.between(0, length),
        2 => length,
        _ => length - driver.random.between(0, 80.min(length)),
    };
    driver.restart(size);
}

/// The line breaks during one replay and again during the next; the third is completed.
pub fn twice_broken(driver: &mut Driver) {
    driver.break_venue();
    driver.break_member();
    for _ in 0..driver.random.between(4, 7) {
        driver.log();
    }
    for _ in 0..2 {
        log_in(driver);
        for _ in 0..driver.random.between(1, 2) {
            driver.step();
            if driver.one_in(4) {
                driver.reject();
            }
            if !driver.one_in(4) {
                driver.deliver();
            }
        }
        match driver.random.below(4) {
            0 => {
                driver.break_member();
                driver.step();
                driver.break_venue();
            }
            1 => {
                driver.break_venue();
                driver.deliver();
                driver.break_member();
            }
            2 => {
                driver.break_venue();
                cut(driver);
            }
            _ => {
                driver.break_venue();
                driver.break_member();
            }
        }
        driver.to_member.clear();
        if driver.one_in(2) {
            driver.log();
        }
    }
    log_in(driver);
    complete(driver);
    driver.books();
}

/// A login that is answered, if both sides are closed.
pub fn log_in(driver: &mut Driver) {
    driver.login();
    driver.pass();
    driver.deliver();
}

/// Steps until the replay is complete, and what they send.
pub fn complete(driver: &mut Driver) {
    for _ in 0..80 {
        if driver.bench.member.phase != Phase::Replaying {
            return;
        }
        driver.step();
        driver.deliver();
        if driver.one_in(8) {
            driver.reject();
            driver.deliver();
        }
    }
}

#[cfg(test)]
mod tests {
    use super::super::driver::is_full;
    use super::*;
    use crate::random::Random;
    use crate::rules::frame;
    use crate::rules::table::entry;

    /// The messages among the bytes of a book or a log; marks are left out.
    fn messages(mut bytes: &[u8]) -> Vec<&[u8]> {
        let mut messages = Vec::new();
        while !bytes.is_empty() {
            match frame::message(bytes) {
                Ok(message) => {
                    messages.push(message);
                    bytes = &bytes[message.len()..];
                }
                Err(_) => bytes = &bytes[16..],
            }
        }
        messages
    }

    /// After the replay that is completed the book holds what the log held, each message once and
    /// in the log's order, whatever the breaks and cuts before it, and whichever form the logins have.
    #[test]
    fn a_completed_replay_misses_nothing() {
        let (mut checked, mut mixed) = (0, 0);
        for seed in 0..200 {
            let mut driver = Driver::new(Random::new(seed));
            driver.units = vec![1, 32, 7];
            driver.open();
            twice_broken(&mut driver);
            let logins: Vec<&String> = driver
                .lines
                .iter()
                .filter(|line| line.starts_with("m-login "))
                .collect();
            let short = |line: &&&String| line.starts_with("m-login 0 ");
            let full = |line: &&&String| is_full(line);
            let forms = [
                logins.iter().filter(short).count(),
                logins.iter().filter(full).count(),
            ];
            // A login that chose its units may have left some out.
            if forms.iter().sum::<usize>() < logins.len() {
                continue;
            }
            let bench = &driver.bench;
            assert_eq!(bench.member.phase, Phase::Live);
            let book = messages(&bench.book[..bench.member.book.length]);
            let log = messages(&bench.log[..bench.venue.length]);
            assert_eq!(book, log);
            assert_eq!(bench.member.book.table, bench.venue.table);
            for unit in 1..=32 {
                // The same messages are the last ones of the log.
                let place = entry(&bench.venue.places, unit) as usize;
                let last = bench.member.book.last_of(unit, &bench.book);
                match last {
                    Ok((_, message)) => assert!(bench.log[place..].starts_with(message)),
                    Err(refusal) => assert_eq!((refusal.number(), place), (26, 0)),
                }
            }
            assert!(log.len() >= 4);
            checked += 1;
            mixed += usize::from(!forms.contains(&0));
        }
        assert!(checked > 100 && mixed > 50, "{} {}", checked, mixed);
    }
}
