//! Both forms of a login from the same states: the short one, given no choice, and the full one, by its
//! units. What the venue sends after them is the same.

use super::day;
use super::driver::{Driver, LoginLine, SHOWN};
use super::faults::member_line;
use crate::hex;
use crate::random::Random;
use crate::rules::member::{Member, Phase};
use crate::rules::table::{entry, set_entry, used, SIZE, UNITS};
use crate::rules::venue::Venue;

/// The steps after each login.
const STEPS: usize = 10;
/// The bytes that are lent of the log's buffer: enough for all units.
const LOG_ROOM: usize = 8_000;

/// A table of what a member has of a log, which is not empty, by the log's table.
type Held = fn(&mut Random, &[u8; SIZE]) -> [u8; SIZE];

/// A log of a few units and then of all, what members may have of it, and what they get after both forms.
pub fn round(driver: &mut Driver) {
    driver.options = 50;
    driver.book_room = SHOWN;
    driver.log_room = LOG_ROOM;
    driver.open();
    driver.ask(venue_line(&Venue::new()));
    driver.units = (0..driver.random.between(2, 4))
        .map(|_| driver.random.between(1, 32) as u8)
        .collect();
    for _ in 0..driver.random.between(8, 11) {
        driver.log();
    }
    let breaking = driver.random.below(6);
    let held: [Held; 6] = [nothing, one, all, less, more, some];
    for (index, held) in (0..).zip(held) {
        from_table(driver, held, index == breaking);
    }
    after_a_break(driver);
    // Now each unit has a message.
    let others: Vec<u8> = (1..=UNITS)
        .filter(|unit| entry(&driver.bench.venue.table, *unit) == 0)
        .collect();
    for unit in others {
        driver.units = vec![unit];
        driver.log();
    }
    driver.units = (1..=UNITS).collect();
    for held in [all, some] {
        from_table(driver, held, false);
    }
}

// What a member has.

fn nothing(_: &mut Random, _: &[u8; SIZE]) -> [u8; SIZE] {
    [0; SIZE]
}

/// The first messages of one unit, or all of them.
fn one(random: &mut Random, log: &[u8; SIZE]) -> [u8; SIZE] {
    let mut table = [0; SIZE];
    let unit = random.pick(&used(log));
    set_entry(&mut table, unit, up_to(random, entry(log, unit)));
    table
}

/// Something of every unit, whether the log has messages of it or not.
fn all(random: &mut Random, log: &[u8; SIZE]) -> [u8; SIZE] {
    let mut table = [0; SIZE];
    for unit in 1..=UNITS {
        let last = entry(log, unit).max(1);
        let number = match random.below(8) {
            0 => u32::MAX,
            1 => last + random.below(3) as u32,
            _ => up_to(random, last),
        };
        set_entry(&mut table, unit, number);
    }
    table
}

/// Of each unit of more than one message the first ones, but not the last.
fn less(random: &mut Random, log: &[u8; SIZE]) -> [u8; SIZE] {
    let mut table = [0; SIZE];
    for unit in used(log) {
        let last = entry(log, unit);
        if last > 1 {
            set_entry(&mut table, unit, up_to(random, last - 1));
        }
    }
    table
}

/// More than the log has of one of its units, and perhaps of others.
fn more(random: &mut Random, log: &[u8; SIZE]) -> [u8; SIZE] {
    let mut table = [0; SIZE];
    let units = used(log);
    let surely = random.pick(&units);
    for unit in units {
        let last = entry(log, unit);
        let number = match random.below(4) {
            0 => u32::MAX,
            1 | 2 => last + random.between(1, 3) as u32,
            _ if unit == surely => last + 1,
            _ => 0,
        };
        set_entry(&mut table, unit, number);
    }
    table
}

/// Some units of the log, but not the last of them, and perhaps one of another log.
fn some(random: &mut Random, log: &[u8; SIZE]) -> [u8; SIZE] {
    let mut table = [0; SIZE];
    if random.below(2) == 0 {
        let unit = random.between(1, 32) as u8;
        set_entry(&mut table, unit, random.between(1, 3) as u32);
    }
    let units = used(log);
    for (index, unit) in units.iter().enumerate() {
        let has = index + 1 < units.len() && random.below(3) != 0;
        let number = up_to(random, entry(log, *unit));
        set_entry(&mut table, *unit, if has { number } else { 0 });
    }
    table
}

/// A number from 1 to `last`.
fn up_to(random: &mut Random, last: u32) -> u32 {
    random.between(1, last as usize) as u32
}

// From which states.

/// A member with an empty book, its table set, and the log as it is.
fn from_table(driver: &mut Driver, held: Held, breaks: bool) {
    let mut member = Member::blank();
    member.market = driver.some_market();
    member.book.date = driver.date;
    member.book.length = 16;
    let mut venue = driver.bench.venue.clone();
    venue.broken();
    venue.received = driver.random.below(30) as u32;
    member.book.table = held(&mut driver.random, &venue.table);
    both(driver, &member, &venue, breaks);
}

/// The states that a replay leaves behind whose line broke.
fn after_a_break(driver: &mut Driver) {
    driver.open();
    day::log_in(driver);
    for _ in 0..driver.random.between(2, 5) {
        driver.step();
        driver.deliver();
    }
    driver.break_venue();
    driver.break_member();
    let (member, venue) = (driver.bench.member.clone(), driver.bench.venue.clone());
    both(driver, &member, &venue, true);
}

/// After both forms from these states: the same random numbers, and so the same questions as far as what is
/// sent is the same. In the end the log is what it was.
fn both(driver: &mut Driver, member: &Member, venue: &Venue, breaks: bool) {
    let logs = driver.one_in(2) || breaks;
    // Whether the login after the break has the other form.
    let changed = driver.one_in(2);
    let random = driver.random.clone();
    for full in [false, true] {
        driver.random = random.clone();
        driver.ask(member_state(member));
        driver.ask(venue_line(venue));
        driver.lose_line();
        driver.to_venue.clear();
        replay(driver, full, logs);
        if breaks {
            if driver.one_in(2) {
                driver.break_venue();
                driver.break_member();
            } else {
                driver.break_member();
                driver.step();
                driver.break_venue();
            }
            driver.log();
            replay(driver, full != changed, logs);
        }
        driver.ask("m-book".to_string());
    }
    driver.ask(venue_line(venue));
}

/// A login of a form, with just enough room or more and at times first with a byte less, and ten steps.
/// Most of what they send is got at once.
fn replay(driver: &mut Driver, full: bool, logs: bool) {
    let login = LoginLine::good(&mut driver.random, false, &driver.units);
    let login = match full {
        true => login.full(),
        false => login.short(),
    };
    let size = login.size(&driver.bench.member.book.table);
    if driver.one_in(3) {
        driver.ask(login.line(size - 1));
    }
    let room = size + driver.random.pick(&[0, 0, 1, 20]) as usize;
    if let Some(message) = driver.ask_for_message(login.line(room)) {
        driver.to_venue.push_back(message);
    }
    driver.pass();
    driver.deliver();
    for _ in 0..STEPS {
        if logs && driver.one_in(3) {
            driver.log();
        }
        driver.step();
        if !driver.one_in(8) {
            driver.deliver();
        }
    }
}

/// Outside a session.
fn member_state(member: &Member) -> String {
    let closed = Phase::Closed as u8;
    member_line(closed, member.outgoing, member.market, &member.book)
}

/// The same of a venue.
fn venue_line(venue: &Venue) -> String {
    format!(
        "v-state 0 0 0 0 {} {} {} {} {}",
        venue.length,
        venue.received,
        hex::write(&[0; SIZE]),
        hex::write(&venue.table),
        hex::write(&venue.places)
    )
}

#[cfg(test)]
mod tests {
    use super::super::driver::is_full;
    use super::super::{script, Kind, SEED, STORED};
    use super::*;
    use crate::ask;
    use crate::rules::read;

    /// Questions with their answers.
    type Lines = Vec<(String, String)>;

    /// What follows each pair of states up to the book after it, without what is asked about last messages:
    /// one after the short form, one after the full one, and so on.
    fn halves(seed: u64) -> Vec<Lines> {
        let questions = script(seed, Kind::Same).join("\n") + "\n";
        let answers = ask::answers(questions.as_bytes());
        let lines: Lines = questions
            .lines()
            .zip(answers.lines())
            .filter(|(question, _)| !question.starts_with("m-last "))
            .map(|(question, answer)| (question.to_string(), answer.to_string()))
            .collect();
        let mut halves = Vec::new();
        for (index, pair) in lines.windows(2).enumerate() {
            if pair[0].0.starts_with("m-state ") && pair[1].0.starts_with("v-state ") {
                let book = |line: &(String, String)| line.0 == "m-book";
                let size = lines[index..].iter().position(book).unwrap();
                halves.push(lines[index..=index + size].to_vec());
            }
        }
        halves
    }

    fn stored_seed() -> u64 {
        let same = |kind: &Kind| matches!(kind, Kind::Same);
        SEED + STORED.iter().position(same).unwrap() as u64
    }

    fn call(line: &(String, String)) -> &str {
        line.0.split(' ').next().unwrap_or_default()
    }

    fn last_word(text: &str) -> Vec<u8> {
        hex::read(text.rsplit(' ').next().unwrap_or_default()).unwrap_or_default()
    }

    fn all_but_last(text: &str) -> &str {
        text.rsplit_once(' ').map_or(text, |(words, _)| words)
    }

    fn table(word: &str) -> [u8; SIZE] {
        hex::read(word).unwrap().try_into().unwrap()
    }

    /// Whether it is a message of a type, at the place of the bytes of a question.
    fn brings(line: &(String, String), type_byte: &str) -> bool {
        let bytes = line.0.split(' ').nth(1).unwrap_or_default();
        line.0.starts_with("m-") && bytes.get(8..10) == Some(type_byte)
    }

    /// One half against the other: all questions are the same but the logins and their responses, and all
    /// answers but what those two calls write. Answers the number of logins.
    fn compare(short: &Lines, full: &Lines) -> usize {
        let (mut logins, mut steps) = (0, 0);
        assert_eq!(short.len(), full.len());
        for (one, other) in short.iter().zip(full) {
            assert_eq!(call(one), call(other));
            match call(one) {
                "m-login" => {
                    let forms = [one, other].map(|line| {
                        let short = line.0.starts_with("m-login 0 ");
                        assert_ne!(short, is_full(&line.0));
                        short
                    });
                    assert_ne!(forms[0], forms[1]);
                    assert_eq!(all_but_last(&one.1), all_but_last(&other.1));
                    let after = |line: &(String, String)| {
                        let words: Vec<&str> = line.0.split(' ').collect();
                        words[5..12].join(" ")
                    };
                    assert_eq!(after(one), after(other));
                    if one.1.starts_with("0 ") {
                        assert_ne!(last_word(&one.1), last_word(&other.1));
                        logins += 1;
                    } else {
                        assert!(one.1.starts_with("13 0 "));
                        for line in [one, other] {
                            assert!(last_word(&line.1).iter().all(|byte| *byte == 0xFF));
                        }
                    }
                }
                "v-login" => {
                    assert!(one.1.starts_with("0 1 0 0 "));
                    assert_ne!(one.0, other.0);
                    // The venue is the same after it; the response has the login's flag and groups.
                    assert_eq!(all_but_last(&one.1), all_but_last(&other.1));
                    assert_ne!(last_word(&one.1), last_word(&other.1));
                }
                "m-get" | "m-response" if brings(one, "24") => {
                    assert_ne!(one.0, other.0);
                    assert_eq!(one.1, other.1);
                }
                "v-step" => {
                    assert_eq!(one, other);
                    steps += 1;
                }
                _ => assert_eq!(one, other),
            }
        }
        assert!(logins > 0);
        assert!(steps >= STEPS * logins && steps <= STEPS * logins + 1);
        logins
    }

    /// After both forms each step answers the same, byte for byte.
    #[test]
    fn the_same_replay() {
        for seed in (0..40).chain([stored_seed()]) {
            let halves = halves(seed);
            assert!(halves.len() >= 18 && halves.len() % 2 == 0);
            let mut breaks = 0;
            for pair in halves.chunks(2) {
                assert_eq!(pair[0][..2], pair[1][..2]);
                assert!(pair[0][2].0.starts_with("m-login 0 "));
                assert!(is_full(&pair[1][2].0));
                breaks += compare(&pair[0], &pair[1]) - 1;
            }
            assert!(breaks >= 2);
        }
    }

    /// What the stored script has: which tables, what the steps send, and what comes between them.
    #[test]
    fn cases() {
        let mut seen: Vec<&str> = Vec::new();
        for half in halves(stored_seed()) {
            let words = |line: usize| half[line].0.split(' ').collect::<Vec<&str>>();
            let (member, venue) = (table(words(0)[8]), table(words(1)[8]));
            let has = used(&member).len();
            let log = used(&venue).len();
            let any = |test: fn(u32, u32) -> bool| {
                (1..=UNITS).any(|unit| test(entry(&member, unit), entry(&venue, unit)))
            };
            let calls: Vec<&str> = half.iter().map(call).collect();
            let text = calls.join(" ");
            let sent: Vec<Vec<u8>> = half
                .iter()
                .filter(|line| call(line) == "v-step" && line.1.starts_with("0 "))
                .map(|line| last_word(&line.1))
                .collect();
            let complete = |out: &Vec<u8>| out.get(4) == Some(&0x13);
            let place = sent.iter().position(complete);
            let later = place.map_or(&[][..], |place| &sent[place + 1..]);
            for (name, holds) in [
                ("empty", has == 0),
                ("one", has == 1),
                ("some", has > 1 && has < log),
                ("all", has == 32 && log < 32),
                ("all of all", has == 32 && log == 32),
                ("longer log", any(|held, log| held > 0 && held < log)),
                ("whole unit", any(|held, log| held > 0 && held == log)),
                ("above the log", any(|held, log| log > 0 && held > log)),
                ("not in the log", any(|held, log| log == 0 && held > 0)),
                ("greatest", any(|held, _| held == u32::MAX)),
                ("logged between", text.contains("v-step v-log v-step")),
                ("nothing logged", !text.contains("v-log ")),
                ("break", text.contains("v-break")),
                (
                    "short of room",
                    half.iter().any(|line| line.1.starts_with("13 0 ")),
                ),
                ("complete", place.is_some()),
                ("incomplete", place.is_none()),
                ("replayed", place.is_some_and(|place| place > 0)),
                ("nothing replayed", place == Some(0)),
                (
                    "live",
                    later.iter().any(|out| read::message(1, out).is_ok()),
                ),
                ("idle", later.iter().any(|out| out[0] == 0xFF)),
                (
                    "booked",
                    half.iter()
                        .any(|line| line.1.starts_with("0 1 3 ") && call(line) == "m-get"),
                ),
            ] {
                if holds && !seen.contains(&name) {
                    seen.push(name);
                }
            }
        }
        assert_eq!(seen.len(), 21, "{:?}", seen);
    }

    /// With just the bytes that a login has there is room for it, with one less there is none.
    #[test]
    fn sizes() {
        let mut random = Random::new(6);
        for seed in 0..300 {
            let mut table = [0; SIZE];
            for _ in 0..seed % 40 {
                let unit = random.between(1, 32) as u8;
                set_entry(&mut table, unit, random.number());
            }
            let login = LoginLine::good(&mut random, true, &[1]);
            let size = login.size(&table);
            let mut driver = Driver::new(Random::new(seed));
            let mut member = Member::blank();
            member.book.table = table;
            driver.ask(member_state(&member));
            assert_eq!(driver.ask(login.line(size - 1)), "13");
            let message = driver.ask_for_message(login.line(size));
            assert_eq!(message.map(|bytes| bytes.len()), Some(size));
        }
    }
}
