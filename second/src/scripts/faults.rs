//! Every fault of every message and record, offered to each call that may take it, in each phase.

use super::day;
use super::driver::{Driver, GETS};
use crate::hex;
use crate::questions::bitfields::late::instruct;
use crate::questions::bitfields::sample::{
    never_blank, orders_of, unlisted_bit, Sample, ACKNOWLEDGMENT, EXECUTION, MODIFY, NEW_ORDERS,
    OPTIONS, PURGE, REJECTED,
};
use crate::questions::parts::{measure, Parts};
use crate::questions::session::faults;
use crate::questions::session::sample::{
    Sample as Session, CLIENT_HEARTBEAT, LOGIN, LOGOUT, REPLAY_COMPLETE, RESPONSE, SERVER_HEARTBEAT,
};
use crate::random::Random;
use crate::rules::book::{Book, BOOKED, MARK};
use crate::rules::frame;
use crate::rules::market::{self, Market};
use crate::rules::record::{COUNT_PLACE, SIZE, SLOTS_PLACE};
use crate::rules::table::entry;
use crate::rules::types::VENUE;

/// A day up to a live session, and then all faults.
pub fn round(driver: &mut Driver) {
    to_live(driver);
    gets(driver);
    kinds(driver);
    orders(driver);
    logs(driver);
    venue(driver);
    driver.books();
}

/// A new book, some messages in the log, and a session whose replay is completed.
pub fn to_live(driver: &mut Driver) {
    driver.open();
    for _ in 0..3 {
        driver.log();
    }
    driver.break_venue();
    day::log_in(driver);
    day::complete(driver);
}

// Messages.

/// What framing refuses, and a type that there is not.
fn of_framing(good: &[u8]) -> Vec<Vec<u8>> {
    let changed = |place: usize, value: u8| {
        let mut bytes = good.to_vec();
        bytes[place] = value;
        bytes
    };
    vec![
        vec![],
        good[..3].to_vec(),
        good[..good.len() - 1].to_vec(),
        changed(0, 0),
        changed(1, 0xAB),
        vec![0xBA, 0xBA, 7, 0],
        vec![0xBA, 0xBA, 0xFF, 7],
        changed(4, 0x3B),
        changed(4, 0x02),
    ]
}

/// The faults of a message with bitfields.
fn of_message(random: &mut Random, which: usize, unit: u8, number: u32) -> Vec<Vec<u8>> {
    let mut good = Sample::least(random, which);
    (good.unit, good.number) = (unit, number);
    let mut all = of_framing(&good.bytes());
    let bad_headers = match (good.layout.direction(), good.layout.greatest_number) {
        (VENUE, 0) => vec![(1, 0), (0, 1), (1, 1), (0, u32::MAX)],
        (VENUE, _) => vec![(0, number), (33, number)],
        _ => vec![(1, number), (255, number)],
    };
    for (unit, number) in bad_headers {
        let mut sample = good.clone();
        (sample.unit, sample.number) = (unit, number);
        all.push(sample.bytes());
    }
    for size in [10, good.bytes().len() - 1, good.bytes().len() + 1] {
        let mut bytes = good.bytes();
        bytes.resize(size, 0);
        measure(&mut bytes);
        all.push(bytes);
    }
    for sample in faulty(&good, which) {
        all.push(sample.bytes());
    }
    all
}

/// 7, 8, 9 where something is required, and 10.
fn faulty(good: &Sample, which: usize) -> Vec<Sample> {
    let mut many = good.clone();
    many.bitfields.resize(good.layout.most + 1, 0);
    many.count = good.layout.most as u8 + 1;
    let mut unlisted = good.clone();
    let (byte, bit) = unlisted_bit(which);
    unlisted.set_bit(byte, bit);
    let mut value = good.clone();
    value.spoil_never_blank(3, b'|');
    let mut blank = good.clone();
    blank.value(never_blank(which)).fill(0);
    let mut all = vec![many, unlisted, value, blank];
    if !good.layout.required.is_empty() {
        let mut missing = good.clone();
        missing.clear();
        all.push(missing);
    }
    all.extend(asking(good, which));
    all.extend(of_one_market(good, which));
    all
}

/// Of the New Orders: a bit that the other market alone has; and maturities, of which one is a day.
fn of_one_market(good: &Sample, which: usize) -> Vec<Sample> {
    let mut all = Vec::new();
    let strangers: &[(usize, u8)] = match NEW_ORDERS.contains(&which) {
        true if which == OPTIONS => &[(2, 2), (3, 128), (6, 1), (10, 2)],
        true => &[(4, 1), (4, 16)],
        false => &[],
    };
    for (byte, bit) in strangers {
        let mut sample = good.clone();
        sample.set_bit(*byte, *bit);
        all.push(sample);
    }
    if which == OPTIONS {
        for maturity in [20_240_229_u32, 20_110_229, 0, 21_000_101] {
            let mut sample = good.clone();
            sample.select("MaturityDate");
            *sample.value("MaturityDate") = maturity.to_le_bytes().to_vec();
            all.push(sample);
        }
    }
    all
}

/// Values that ask for a field that is not there, and fields that do not go together; of a Purge Orders
/// also too many ids, alone and before those.
fn asking(good: &Sample, which: usize) -> Vec<Sample> {
    let mut all = Vec::new();
    let mut with = |change: &dyn Fn(&mut Sample)| {
        let mut sample = good.clone();
        change(&mut sample);
        all.push(sample);
    };
    if which == MODIFY {
        for ord_type in [b'1', b'2', 0, b'-'] {
            with(&|sample| {
                sample.unselect("Price");
                sample.select("OrdType");
                *sample.value("OrdType") = vec![ord_type];
            });
        }
    }
    if which == PURGE {
        for characters in [b"FMN", b"ASN", b"ABL", b"AML"] {
            with(&|sample| instruct(sample, characters));
        }
        with(&|sample| {
            sample.select("Symbol");
            sample.select("MatchingUnit");
        });
        for characters in [b"AMN", b"ASL", b"AML"] {
            with(&|sample| {
                instruct(sample, characters);
                sample.middle = vec![11; 23];
            });
        }
    }
    all
}

/// The faults of a session message; of those of its groups some.
fn of_session(random: &mut Random, which: usize) -> Vec<Vec<u8>> {
    let good = Session::whole(random, which);
    let mut all = of_framing(&good.bytes());
    let (mut unit, mut number) = (good.clone(), good.clone());
    unit.unit = 1;
    number.number = 1;
    all.extend([unit.bytes(), number.bytes()]);
    let mut longer = good.bytes();
    longer.push(0);
    measure(&mut longer);
    all.push(longer);
    if [CLIENT_HEARTBEAT, SERVER_HEARTBEAT, REPLAY_COMPLETE].contains(&which) {
        return all;
    }
    let mut shorter = good.bytes()[..25].to_vec();
    measure(&mut shorter);
    all.push(shorter);
    let mut value = good.clone();
    value.fields[0][0] = b'"';
    all.push(value.bytes());
    for mut samples in [faults::broken(random, which), faults::left(random, which)] {
        for _ in 0..3 {
            let index = random.between(0, samples.len() - 1);
            all.push(samples.swap_remove(index).bytes());
        }
    }
    all
}

// Calls.

/// The member's phase and its outgoing number alone are changed.
pub fn set_phase(driver: &mut Driver, phase: u8, outgoing: u32) {
    set_market(driver, phase, outgoing, driver.bench.member.market);
}

/// The same with its market.
pub fn set_market(driver: &mut Driver, phase: u8, outgoing: u32, market: Market) {
    let line = member_line(phase, outgoing, market, &driver.bench.member.book);
    driver.ask(line);
}

/// The question that sets a member's state.
pub fn member_line(phase: u8, outgoing: u32, market: Market, book: &Book) -> String {
    format!(
        "m-state {} {} {} {} {} {} {} {} {}",
        phase,
        outgoing,
        market as u8,
        book.date,
        book.length,
        book.last,
        book.count,
        hex::write(&book.table),
        hex::write(&book.places)
    )
}

/// The faults of what the venue sends, by the call for any message; those of an application message
/// and of a Login Response also by the calls for these alone, and of the others some.
fn gets(driver: &mut Driver) {
    let unit = driver.units[0];
    for phase in 0..4 {
        set_phase(driver, phase, 7);
        let next = entry(&driver.bench.member.book.table, unit) + 1;
        let random = &mut driver.random;
        let mut messages = Vec::new();
        for which in [ACKNOWLEDGMENT, EXECUTION] {
            messages.extend(of_message(random, which, unit, next));
        }
        let responses = of_session(random, RESPONSE);
        let mut others = Vec::new();
        for which in [LOGOUT, SERVER_HEARTBEAT, REPLAY_COMPLETE] {
            others.extend(of_session(random, which));
        }
        for which in REJECTED {
            others.extend(of_message(random, which, 0, 0));
        }
        let all = [&messages[..], &responses, &others].concat();
        for (call, own) in GETS.into_iter().zip([&all, &messages, &responses]) {
            let foreign = all.iter().filter(|bytes| !own.contains(bytes));
            let asked: Vec<&Vec<u8>> = own.iter().chain(foreign.step_by(4)).collect();
            let count = if phase == 0 { 12 } else { asked.len() };
            for bytes in &asked[..count] {
                let room = driver.random.pick(&[0, 1, 1]);
                let room = usize::from(room) * driver.book_room;
                driver.get_by(call, bytes, room);
            }
        }
    }
}

/// What each phase takes and what it does not, by each of the three calls: with a byte less than the
/// room that it needs, and with just enough.
fn kinds(driver: &mut Driver) {
    for phase in 0..4 {
        set_phase(driver, phase, 7);
        for call in GETS {
            for fewer in [1, 0] {
                for bytes in of_kinds(driver) {
                    let needed = match frame::message(&bytes) {
                        Ok(message) if BOOKED.contains(&message[4]) => message.len(),
                        _ => MARK,
                    };
                    let room = driver.bench.member.book.length + needed - fewer;
                    if driver.get_by(call, &bytes, room) == "0" {
                        set_phase(driver, phase, 7);
                    }
                }
            }
        }
    }
}

/// A good message of each type of either direction, and of one that there is not. Of those that are
/// booked numbers at, below and past the next one, which rises as they are taken. Some are followed
/// by a second message.
fn of_kinds(driver: &mut Driver) -> Vec<Vec<u8>> {
    let unit = driver.units[0];
    let last = entry(&driver.bench.member.book.table, unit);
    let random = &mut driver.random;
    let mut booked = Vec::new();
    for (which, number) in [
        (ACKNOWLEDGMENT, last),
        (EXECUTION, last + 2),
        (ACKNOWLEDGMENT, last + 1),
        (EXECUTION, last.saturating_sub(1)),
        (ACKNOWLEDGMENT, last + 3),
        (EXECUTION, last + 2),
        (ACKNOWLEDGMENT, last + 3),
    ] {
        let mut sample = Sample::least(random, which);
        (sample.unit, sample.number) = (unit, number);
        booked.push(sample.bytes());
    }
    let mut of_session = Vec::new();
    for status in [b'A', b'N'] {
        let mut response = Session::least(random, RESPONSE);
        *response.value("LoginResponseStatus") = vec![status];
        of_session.push(response.bytes());
    }
    for which in [
        LOGOUT,
        SERVER_HEARTBEAT,
        REPLAY_COMPLETE,
        CLIENT_HEARTBEAT,
        LOGIN,
    ] {
        of_session.push(Session::least(random, which).bytes());
    }
    // One of each kind with the other's after it.
    booked[6].extend(&of_session[0]);
    of_session[0].extend(&booked[2]);
    let orders = orders_of(Market::Equities).map(|which| Sample::least(random, which).bytes());
    let rejected = REJECTED.map(|which| Sample::any(random, which).bytes());
    let mut unknown = booked[2].clone();
    unknown[4] = 0x27;
    [
        booked,
        of_session,
        orders.to_vec(),
        rejected.to_vec(),
        vec![unknown],
    ]
    .concat()
}

/// Those of each market in a session of it, and its New Order in a session of the other.
fn orders(driver: &mut Driver) {
    for market in market::ALL {
        for which in orders_of(market) {
            orders_of_type(driver, market, which);
        }
        let [new_order, ..] = orders_of(market.other());
        let foreign = Sample::least(&mut driver.random, new_order);
        for (phase, outgoing) in [(3, 7), (3, u32::MAX), (2, 7), (0, 7)] {
            set_market(driver, phase, outgoing, market);
            let records = faulty(&foreign, new_order).into_iter().step_by(4);
            for sample in [foreign.clone()].into_iter().chain(records) {
                driver.ask(format!("m-order {} 100", hex::write(&sample.record())));
            }
            let short = &foreign.record()[..SIZE - 1];
            driver.ask(format!("m-order {} 100", hex::write(short)));
        }
    }
    driver.to_venue.clear();
}

/// The faults of an order's record in each phase; in an options session, those of a type that both markets
/// have in a live one alone.
fn orders_of_type(driver: &mut Driver, market: Market, which: usize) {
    let states = [
        (3, 7),
        (3, u32::MAX),
        (3, u32::MAX - 1),
        (2, 7),
        (1, 7),
        (0, 7),
    ];
    let count = match market {
        Market::Options if which != OPTIONS => 1,
        _ => states.len(),
    };
    for (phase, outgoing) in &states[..count] {
        set_market(driver, *phase, *outgoing, market);
        let good = Sample::least(&mut driver.random, which);
        let mut records: Vec<Vec<u8>> = faulty(&good, which)
            .iter()
            .map(|sample| sample.record())
            .collect();
        for (place, value) in [
            (0, 0x37),
            (0, 0x25),
            (0, 0x26),
            (0, 0x38),
            (0, 0xB8),
            (1, 1),
            (COUNT_PLACE, 255),
            (SLOTS_PLACE - 1, 1),
            (SIZE - 1, 1),
        ] {
            let mut record = good.record();
            record[place] = value;
            records.push(record);
        }
        records.push(good.record()[..SIZE - 1].to_vec());
        records.push(Vec::new());
        if *phase != 3 || *outgoing == u32::MAX {
            records.truncate(2);
        }
        for record in records {
            let room = usize::from(driver.random.pick(&[0, 100, 100]));
            driver.ask(format!("m-order {} {}", hex::write(&record), room));
        }
        for room in [good.bytes().len() - 1, good.bytes().len()] {
            let record = hex::write(&good.record());
            driver.ask(format!("m-order {} {}", record, room));
        }
    }
}

/// Of the rejections a good one and their faults, which the log does not look at.
fn logs(driver: &mut Driver) {
    let unit = driver.units[0];
    for which in REJECTED {
        let mut all = of_message(&mut driver.random, which, 0, 0);
        all.push(Sample::any(&mut driver.random, which).bytes());
        for bytes in all {
            let line = format!("v-log {} {}", hex::write(&bytes), driver.log_room);
            driver.ask(line);
        }
    }
    for which in [ACKNOWLEDGMENT, EXECUTION] {
        let next = entry(&driver.bench.venue.table, unit) + 1;
        for bytes in of_message(&mut driver.random, which, unit, next) {
            let room = usize::from(driver.random.pick(&[0, 1])) * driver.log_room;
            driver.ask(format!("v-log {} {}", hex::write(&bytes), room));
        }
    }
}

/// Logins and orders, each outside a session and in one.
fn venue(driver: &mut Driver) {
    for running in [false, true] {
        driver.break_venue();
        if running {
            let login = Session::whole(&mut driver.random, LOGIN);
            driver.ask(format!("v-login {} 450", hex::write(&login.bytes())));
        }
        let next = driver.bench.venue.received.saturating_add(1);
        let random = &mut driver.random;
        let mut logins = of_session(random, LOGIN);
        let mut orders = of_session(random, CLIENT_HEARTBEAT);
        let equities = orders_of(Market::Equities);
        // A good one of each type, with the next number or one after it.
        for (index, which) in equities.into_iter().enumerate() {
            let mut good = Sample::any(random, which);
            good.number = next.saturating_add(index as u32);
            orders.push(good.bytes());
        }
        let next = next.saturating_add(equities.len() as u32);
        // A number that is not above the last is told after what the reader refuses.
        for (index, which) in equities.into_iter().enumerate() {
            let number = next - index as u32 % 2;
            orders.extend(of_message(random, which, 0, number));
        }
        if running {
            logins.truncate(6);
        } else {
            orders = orders.into_iter().step_by(7).collect();
        }
        for bytes in logins {
            let room = if driver.one_in(3) { 0 } else { 450 };
            driver.ask(format!("v-login {} {}", hex::write(&bytes), room));
        }
        for bytes in orders {
            driver.venue_order(Market::Equities, &bytes);
        }
        of_options(driver);
    }
}

/// What a member of an options market sends, good and with every fault; then the New Order of each market, with
/// all its fields and with the type of the record, to both.
fn of_options(driver: &mut Driver) {
    let next = driver.bench.venue.received.saturating_add(1);
    let random = &mut driver.random;
    let mut sent = Vec::new();
    for (index, which) in orders_of(Market::Options).into_iter().enumerate() {
        let mut good = Sample::any(random, which);
        good.number = next.saturating_add(index as u32);
        sent.push(good.bytes());
        sent.extend(of_message(random, which, 0, good.number));
    }
    sent.extend(of_session(random, CLIENT_HEARTBEAT).into_iter().step_by(3));
    if !driver.bench.venue.running {
        sent = sent.into_iter().step_by(7).collect();
    }
    for bytes in sent {
        driver.venue_order(Market::Options, &bytes);
    }
    for which in NEW_ORDERS {
        let mut sample = Sample::least(&mut driver.random, which);
        for all in [false, true] {
            if all {
                sample.select_all();
            }
            for market in market::ALL {
                sample.number = driver.bench.venue.received.saturating_add(1);
                let mut bytes = sample.bytes();
                driver.venue_order(market, &bytes);
                bytes[4] = 0xB8;
                driver.venue_order(market, &bytes);
            }
        }
    }
}
