//! What is refused with a place, offered to each call that may take it.

use super::driver::{Driver, LoginLine, GETS};
use super::faults::{set_market, set_phase, to_live};
use crate::hex;
use crate::questions::bitfields::places as bitfields;
use crate::questions::bitfields::sample::{
    orders_of, ACKNOWLEDGMENT, EXECUTION, OPTIONS, REJECTED,
};
use crate::questions::parts::Parts;
use crate::questions::session::places as session;
use crate::questions::session::sample::{
    CLIENT_HEARTBEAT, LOGIN, LOGOUT, REPLAY_COMPLETE, RESPONSE, SERVER_HEARTBEAT,
};
use crate::rules::market::Market;
use crate::rules::table::entry;

/// A day up to a live session, and then all calls.
pub fn round(driver: &mut Driver) {
    to_live(driver);
    gets(driver);
    orders(driver);
    logins(driver);
    venue(driver);
    driver.books();
}

/// About half of the messages of a type with bitfields, with this unit and number.
fn of_messages(driver: &mut Driver, which: usize, unit: u8, number: u32) -> Vec<Vec<u8>> {
    let random = &mut driver.random;
    let first = random.between(0, 1);
    let placed = bitfields::faulty(random, which).into_iter();
    let totals = bitfields::totals(random, which).into_iter();
    let mut all: Vec<Vec<u8>> = placed
        .map(|(sample, _)| sample.bytes())
        .skip(first)
        .step_by(2)
        .chain(totals.map(|(bytes, _)| bytes).step_by(4))
        .collect();
    for bytes in &mut all {
        bytes[5] = unit;
        bytes[6..10].copy_from_slice(&number.to_le_bytes());
    }
    all
}

/// The messages of a type of the session; of those with a wrong total some.
fn of_session(driver: &mut Driver, which: usize) -> Vec<Vec<u8>> {
    let random = &mut driver.random;
    let placed = session::values(random, which).into_iter();
    let totals = session::totals(random, which).into_iter();
    placed
        .map(|(sample, _)| sample.bytes())
        .chain(totals.map(|(bytes, _)| bytes).step_by(3))
        .collect()
}

/// What the venue sends, by the call for any message and by those for the two kinds, in each phase
/// that is not closed.
fn gets(driver: &mut Driver) {
    let [any, message, response] = GETS;
    let unit = driver.units[0];
    let next = entry(&driver.bench.member.book.table, unit) + 1;
    for phase in 1..4 {
        set_phase(driver, phase, 7);
        for which in [ACKNOWLEDGMENT, EXECUTION] {
            for bytes in of_messages(driver, which, unit, next) {
                let call = if driver.one_in(2) { any } else { message };
                driver.get_by(call, &bytes, driver.book_room);
            }
        }
        for which in REJECTED {
            for bytes in of_messages(driver, which, 0, 0).iter().step_by(2) {
                let call = if driver.one_in(4) { message } else { any };
                driver.get_by(call, bytes, driver.book_room);
            }
        }
        for bytes in of_session(driver, RESPONSE) {
            let call = if driver.one_in(2) { any } else { response };
            driver.get_by(call, &bytes, driver.book_room);
        }
        for which in [LOGOUT, SERVER_HEARTBEAT, REPLAY_COMPLETE] {
            for bytes in of_session(driver, which) {
                driver.get_by(any, &bytes, driver.book_room);
            }
        }
    }
}

/// The orders of both markets, each type once.
fn orders_of_both() -> impl Iterator<Item = (Market, usize)> {
    let equities = orders_of(Market::Equities).map(|which| (Market::Equities, which));
    equities.into_iter().chain([(Market::Options, OPTIONS)])
}

fn orders(driver: &mut Driver) {
    for (market, which) in orders_of_both() {
        set_market(driver, 3, 7, market);
        let placed = bitfields::faulty(&mut driver.random, which);
        for (sample, _) in placed.iter().step_by(2) {
            let room = driver.random.between(0, 3);
            let record = hex::write(&sample.record());
            driver.ask(format!("m-order {} {}", record, room));
        }
    }
}

/// Names against their kinds, with any choice of units.
fn logins(driver: &mut Driver) {
    set_market(driver, 0, 7, Market::Equities);
    for (sample, _) in session::values(&mut driver.random, LOGIN) {
        let mut login = LoginLine::good(&mut driver.random, true, &driver.units);
        login.names = sample.fields.concat();
        if driver.one_in(2) {
            // 11, which is told after it.
            (login.which, login.flag) = (1, 2);
        }
        driver.ask(login.line(0));
    }
}

/// Messages for the log and logins outside a session, orders and heartbeats in one.
fn venue(driver: &mut Driver) {
    driver.break_venue();
    let unit = driver.units[0];
    let next = entry(&driver.bench.venue.table, unit) + 1;
    for which in [ACKNOWLEDGMENT, EXECUTION] {
        for bytes in of_messages(driver, which, unit, next) {
            let line = format!("v-log {} {}", hex::write(&bytes), driver.log_room);
            driver.ask(line);
        }
    }
    for which in REJECTED {
        for bytes in of_messages(driver, which, 0, 0).iter().step_by(8) {
            let line = format!("v-log {} {}", hex::write(bytes), driver.log_room);
            driver.ask(line);
        }
    }
    for bytes in of_session(driver, LOGIN) {
        driver.ask(format!("v-login {} 0", hex::write(&bytes)));
    }
    driver.login();
    driver.pass();
    let received = driver.bench.venue.received;
    for (market, which) in orders_of_both() {
        // The last number, which would be 21, and the one after it.
        let number = received + driver.random.below(2) as u32;
        for bytes in of_messages(driver, which, 0, number) {
            driver.venue_order(market, &bytes);
        }
    }
    for bytes in of_session(driver, CLIENT_HEARTBEAT) {
        driver.venue_order(Market::Equities, &bytes);
    }
}
