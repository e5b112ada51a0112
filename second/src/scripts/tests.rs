use super::driver::{is_full, GETS};
use super::*;
use crate::ask;
use crate::bench::Bench;
use crate::hex;
use crate::rules::{book, listing, table};
use std::collections::{BTreeMap, BTreeSet};

/// The stored scripts, each a list of questions with their answers.
fn answered() -> Vec<Vec<(String, String)>> {
    let questions = stored();
    let answers = ask::answers(questions.as_bytes());
    let mut scripts: Vec<Vec<(String, String)>> = Vec::new();
    for (question, answer) in questions.lines().zip(answers.lines()) {
        if question == "new" {
            scripts.push(Vec::new());
        }
        let script = scripts.last_mut().unwrap();
        script.push((question.to_string(), answer.to_string()));
    }
    scripts
}

#[test]
fn the_same_at_each_making() {
    assert_eq!(stored(), stored());
}

#[test]
fn shapes() {
    let scripts = answered();
    assert_eq!(scripts.len(), STORED.len());
    let mut size = 0;
    for (script, kind) in scripts.iter().zip(STORED) {
        assert!(script.len() >= LEAST);
        for (question, answer) in script {
            assert!(question.len() <= 8_000 && answer.len() <= 8_000);
            size += question.len() + answer.len() + 2;
            let outside = matches!(kind, Kind::Outside);
            assert!(answer != "?" || outside, "{}", question);
        }
        let last = &script[script.len() - 2..];
        assert_eq!((&last[0].0[..], &last[1].0[..]), ("m-book", "v-book"));
    }
    assert!(size < 8_400_000);
}

/// Each question is answered with each number that it can give, and with no other. What comes
/// from the venue has no required field, and so gives no 9.
#[test]
fn each_question_gets_each_refusal() {
    let mut seen: BTreeMap<String, BTreeSet<u8>> = BTreeMap::new();
    for (question, answer) in answered().concat() {
        let call = question.split(' ').next().unwrap();
        let silent = [
            "m-state", "m-break", "m-book", "v-state", "v-break", "v-book",
        ];
        if answer != "?" && !silent.contains(&call) {
            let number = answer.split(' ').next().unwrap();
            let number = ask::number_of(number).parse().unwrap();
            seen.entry(call.to_string()).or_default().insert(number);
        }
    }
    let expected = [
        ("new", "0"),
        ("m-open", "0 13 19"),
        ("m-restart", "0 17 18 19 22"),
        ("m-login", "0 10 11 13 16"),
        ("m-get", "0 1 2 3 4 5 6 7 8 10 11 13 14 15 16"),
        ("m-message", "0 1 2 3 4 5 6 7 8 10 13 14 15 16"),
        ("m-response", "0 1 2 3 4 5 6 10 11 16"),
        ("m-order", "0 4 5 7 8 9 10 12 13 16 20 23"),
        ("m-beat", "0 13 16"),
        ("m-last", "0 5 18 26"),
        ("v-log", "0 1 2 3 4 5 6 7 8 10 13 14 15"),
        ("v-login", "0 1 2 3 4 5 6 10 11 13 16"),
        ("v-step", "0 13 16"),
        ("v-order", "0 1 2 3 4 5 6 7 8 9 10 16 21 23"),
    ];
    for (call, numbers) in expected {
        let numbers: BTreeSet<u8> = numbers
            .split(' ')
            .map(|number| number.parse().unwrap())
            .collect();
        assert_eq!(seen.remove(call), Some(numbers), "{}", call);
    }
    assert!(seen.is_empty());
}

/// The form of a login: `s` given no choice, `f` all units in their order and flag 1, `o` any other.
fn form_of(question: &str) -> Option<char> {
    match question.strip_prefix("m-login ")? {
        _ if is_full(question) => Some('f'),
        rest if rest.starts_with("0 ") => Some('s'),
        _ => Some('o'),
    }
}

/// On all days logins of both forms are taken, one after the other in every order, and others too.
#[test]
fn forms_of_logins() {
    let mut all = String::new();
    for (script, kind) in answered().into_iter().zip(STORED) {
        let taken: String = script
            .iter()
            .filter(|(_, answer)| answer.starts_with("0 "))
            .filter_map(|(question, _)| form_of(question))
            .collect();
        if matches!(kind, Kind::Days(_)) {
            for form in ["s", "f"] {
                let count = taken.matches(form).count();
                assert!(count >= 5, "{:?} {}", kind, taken);
            }
        }
        all.push_str(&taken);
    }
    for (what, least) in [("ss", 50), ("ff", 50), ("sf", 100), ("fs", 100), ("o", 150)] {
        let count = all.matches(what).count();
        assert!(count >= least, "{} {}", what, count);
    }
}

/// Given no choice, what is written lists just the units that have a number, ascending, with flag 0: none, some and
/// all, with the least number and the greatest.
#[test]
fn logins_given_no_choice() {
    let mut counts = BTreeSet::new();
    let mut ends = BTreeSet::new();
    let mut bench = Bench::new();
    for (question, answer) in answered().concat() {
        let table = bench.member.book.table;
        assert_eq!(ask::answer_on(&mut bench, question.as_bytes()), answer);
        if form_of(&question) != Some('s') || !answer.starts_with("0 ") {
            continue;
        }
        let out = hex::read(answer.rsplit(' ').next().unwrap()).unwrap();
        let units = table::used(&table);
        let size = 5 + 5 * units.len();
        let mut group = (size as u16).to_le_bytes().to_vec();
        group.extend([0x80, 0, units.len() as u8]);
        for unit in &units {
            let number = table::entry(&table, *unit);
            group.push(*unit);
            group.extend(number.to_le_bytes());
            ends.extend([1, u32::MAX].into_iter().find(|end| *end == number));
        }
        assert_eq!(out[29..29 + size], group);
        counts.insert(units.len());
    }
    assert!(
        counts.is_superset(&BTreeSet::from([0, 1, 2, 3, 4, 32])),
        "{:?}",
        counts
    );
    assert_eq!(ends.len(), 2);
}

/// Each question is also asked outside its format, which changes nothing.
#[test]
fn lines_outside_the_format() {
    let mut calls = BTreeSet::new();
    let mut bench = Bench::new();
    for (question, answer) in answered().concat() {
        let before = (bench.member.clone(), bench.venue.clone());
        let buffers = (bench.book.clone(), bench.log.clone());
        assert_eq!(ask::answer_on(&mut bench, question.as_bytes()), answer);
        if answer == "?" {
            calls.insert(question.split(' ').next().unwrap().to_string());
            assert_eq!((bench.member.clone(), bench.venue.clone()), before);
            assert_eq!((&bench.book, &bench.log), (&buffers.0, &buffers.1));
        }
    }
    for call in [
        "new",
        "m-open",
        "m-restart",
        "m-state",
        "m-login",
        "m-get",
        "m-message",
        "m-response",
        "m-order",
        "m-beat",
        "m-break",
        "m-book",
        "m-last",
        "v-state",
        "v-log",
        "v-login",
        "v-step",
        "v-order",
        "v-break",
        "v-book",
    ] {
        assert!(calls.contains(call), "{}", call);
    }
}

/// The member's phase in an answer.
fn phase_of(question: &str, answer: &str) -> Option<u8> {
    let place = match question.split(' ').next()? {
        "m-open" | "m-restart" | "m-login" | "m-order" | "m-beat" => 1,
        "m-get" => 2,
        "m-message" | "m-response" => 1,
        "m-state" | "m-break" => 0,
        _ => return None,
    };
    answer.split(' ').nth(place)?.parse().ok()
}

/// Each of the calls that get what the venue sent is asked in each phase, with every number that it
/// gives there.
#[test]
fn gets_in_each_phase() {
    let mut seen: BTreeMap<(String, u8), BTreeSet<u8>> = BTreeMap::new();
    for script in answered() {
        let mut phase = 0;
        for (question, answer) in script {
            let call = question.split(' ').next().unwrap().to_string();
            if answer != "?" && GETS.contains(&&call[..]) {
                let number = answer.split(' ').next().unwrap();
                let number = ask::number_of(number).parse().unwrap();
                seen.entry((call, phase)).or_default().insert(number);
            }
            phase = phase_of(&question, &answer).unwrap_or(phase);
        }
    }
    let numbers = |text: &str| -> BTreeSet<u8> {
        let numbers = text.split(' ');
        numbers.map(|number| number.parse().unwrap()).collect()
    };
    for (call, asked, running) in [
        (
            "m-get",
            "0 1 2 3 4 5 6 7 8 10 11 16",
            "0 1 2 3 4 5 6 7 8 10 11 13 14 15 16",
        ),
        (
            "m-message",
            "1 2 3 4 5 6 7 8 10 16",
            "0 1 2 3 4 5 6 7 8 10 13 14 15",
        ),
        ("m-response", "0 1 2 3 4 5 6 10 11", "1 2 3 4 5 6 10 11 16"),
    ] {
        for (phase, expected) in [(0, "16"), (1, asked), (2, running), (3, running)] {
            let found = seen.remove(&(call.to_string(), phase));
            assert_eq!(found, Some(numbers(expected)), "{} {}", call, phase);
        }
    }
    assert!(seen.is_empty());
}

/// The type of what a question offers, if it is one of those that are handed to the desk.
fn rejection_of(question: &str) -> Option<&str> {
    let bytes = question.split(' ').nth(1)?;
    let type_byte = bytes.get(8..10)?;
    let known = bytes.starts_with("BABA") && ["26", "29", "2B"].contains(&type_byte);
    known.then_some(type_byte)
}

/// Each rejection is offered to each call in each phase, with every number that it gets there; to
/// `v-log`, which has no phase, as to a phase 9. One that is handed to the desk leaves the member as
/// it was, and so does one that is refused.
#[test]
fn rejections() {
    let mut seen: BTreeMap<(String, String, u8), BTreeSet<u8>> = BTreeMap::new();
    let mut handed = 0;
    for script in answered() {
        let mut phase = 0;
        let mut member = String::new();
        for (question, answer) in script {
            let call = question.split(' ').next().unwrap();
            let words: Vec<&str> = answer.split(' ').collect();
            let known = rejection_of(&question).filter(|_| call != "v-order" && answer != "?");
            if let Some(type_byte) = known {
                let number = ask::number_of(words[0]).parse().unwrap();
                let phase = if call == "v-log" { 9 } else { phase };
                let key = (call.to_string(), type_byte.to_string(), phase);
                seen.entry(key).or_default().insert(number);
                if call == "m-get" {
                    assert_eq!(words[1], if number == 0 { "2" } else { "0" });
                    assert_eq!(words[2..].join(" "), member);
                    handed += usize::from(number == 0);
                }
            }
            phase = phase_of(&question, &answer).unwrap_or(phase);
            member = member_of(&question, &answer).unwrap_or(member);
        }
    }
    assert!(handed > 200);
    for type_byte in ["26", "29", "2B"] {
        for (call, phase, expected) in [
            ("m-get", 0, "16"),
            ("m-get", 1, "3 5 6 7 8 10 16"),
            ("m-get", 2, "0 3 5 6 7 8 10"),
            ("m-get", 3, "0 3 5 6 7 8 10"),
            ("m-message", 0, "16"),
            ("m-message", 1, "4"),
            ("m-message", 2, "4"),
            ("m-message", 3, "4"),
            ("m-response", 0, "16"),
            ("m-response", 1, "4"),
            ("m-response", 2, "4"),
            ("m-response", 3, "4"),
            ("v-log", 9, "4"),
        ] {
            let key = (call.to_string(), type_byte.to_string(), phase);
            let found = seen.get(&key).cloned().unwrap_or_default();
            let expected: BTreeSet<u8> = expected.split(' ').map(|n| n.parse().unwrap()).collect();
            assert!(found.is_superset(&expected), "{:?} {:?}", key, found);
        }
    }
}

/// MEMBER in an answer.
fn member_of(question: &str, answer: &str) -> Option<String> {
    let first = match question.split(' ').next()? {
        "m-get" => 2,
        "m-state" | "m-break" => 0,
        "m-book" | "m-last" => return None,
        call if call.starts_with("m-") => 1,
        _ => return None,
    };
    let words: Vec<&str> = answer.split(' ').collect();
    Some(words.get(first..first + 9)?.join(" "))
}

/// What the member books and what is handed to the desk, in the order in which it comes: of a replay
/// small letters, of a live session capital ones.
fn desk_of(script: &[(String, String)]) -> String {
    let mut all = String::new();
    for (question, answer) in script {
        let words: Vec<&str> = answer.split(' ').collect();
        let call = question.split(' ').next().unwrap_or_default();
        let sort = match (call, &words[..]) {
            ("m-get", ["0", "1", "2", ..]) | ("m-message", ["0", "2", ..]) => "b",
            ("m-get", ["0", "2", "2", ..]) => "h",
            ("m-get", ["0", "1", "3", ..]) | ("m-message", ["0", "3", ..]) => "B",
            ("m-get", ["0", "2", "3", ..]) => "H",
            _ => "",
        };
        all.push_str(sort);
    }
    all
}

/// Rejections come between replayed messages and between live ones, on quiet days and on those that
/// break.
#[test]
fn rejections_among_others() {
    let scripts = answered();
    for (script, kind) in scripts.iter().zip(STORED) {
        if matches!(kind, Kind::Days(_)) {
            let desk = desk_of(script);
            assert!(desk.contains('h') || desk.contains('H'), "{:?}", kind);
        }
    }
    let all: Vec<String> = scripts.iter().map(|script| desk_of(script)).collect();
    for (what, least) in [("bhb", 15), ("BHB", 15), ("hh", 2), ("bh", 30), ("hb", 30)] {
        let count: usize = all.iter().map(|desk| desk.matches(what).count()).sum();
        assert!(count >= least, "{} {}", what, count);
    }
}

/// The type of the record that an order's call gets, or of the record that its message would have.
fn order_of(question: &str) -> Option<(String, String)> {
    let words: Vec<&str> = question.split(' ').collect();
    let type_byte = match words[..] {
        ["m-order", record, _] => record.get(..2)?,
        ["v-order", "0", bytes] if bytes.starts_with("BABA") => bytes.get(8..10)?,
        ["v-order", "1", bytes] if bytes.starts_with("BABA") => match bytes.get(8..10)? {
            "38" => "B8",
            other => other,
        },
        _ => return None,
    };
    Some((words[0].to_string(), type_byte.to_string()))
}

/// Each of the orders of both markets is offered to `m-order` in each phase and to `v-order` in a session and
/// outside one, with every number that it gets there. The outgoing number rises with what goes out and
/// with nothing else.
#[test]
fn orders() {
    let mut seen: BTreeMap<(String, String, u8), BTreeSet<u8>> = BTreeMap::new();
    for script in answered() {
        let (mut phase, mut running) = (0, 0);
        let mut outgoing = String::new();
        for (question, answer) in script {
            let words: Vec<&str> = answer.split(' ').collect();
            if let Some((call, type_byte)) = order_of(&question).filter(|_| answer != "?") {
                let number = ask::number_of(words[0]).parse().unwrap();
                let state = if call == "m-order" { phase } else { running };
                if call == "m-order" {
                    assert_eq!(words[2] == outgoing, number != 0);
                }
                seen.entry((call, type_byte, state))
                    .or_default()
                    .insert(number);
            }
            phase = phase_of(&question, &answer).unwrap_or(phase);
            if let Some(member) = member_of(&question, &answer) {
                outgoing = member.split(' ').nth(1).unwrap_or_default().to_string();
            }
            let place = match question.split(' ').next().unwrap() {
                "v-state" | "v-break" => 0,
                "v-log" | "v-login" | "v-step" | "v-order" => 1,
                _ => continue,
            };
            if let Some(Ok(after)) = words.get(place).map(|word| word.parse()) {
                running = after;
            }
        }
    }
    for (type_byte, more) in [
        ("38", "9"),
        ("39", ""),
        ("3A", "9"),
        ("47", "9 23"),
        ("B8", "9"),
    ] {
        for (call, state, expected) in [
            ("m-order", 0, "16"),
            ("m-order", 1, "16"),
            ("m-order", 2, "16"),
            ("m-order", 3, "0 5 7 8 10 12 13 20"),
            ("v-order", 0, "16"),
            ("v-order", 1, "0 3 5 6 7 8 10 21"),
        ] {
            let more = if expected == "16" { "" } else { more };
            let expected: BTreeSet<u8> = expected
                .split(' ')
                .chain(more.split(' '))
                .filter_map(|number| number.parse().ok())
                .collect();
            let key = (call.to_string(), type_byte.to_string(), state);
            let found = seen.get(&key).cloned().unwrap_or_default();
            assert!(found.is_superset(&expected), "{:?} {:?}", key, found);
            assert!(!found.contains(&23) || type_byte == "47", "{:?}", key);
        }
    }
}

/// The market in an answer.
fn market_of(question: &str, answer: &str) -> Option<String> {
    let member = member_of(question, answer)?;
    member.split(' ').nth(2).map(str::to_string)
}

/// Openings and restarts name each market, the same as before and another; what they name is kept if they
/// are not refused. Nothing else changes it, but a new bench and a state that is set.
#[test]
fn markets() {
    let mut seen: BTreeMap<(String, bool, bool), usize> = BTreeMap::new();
    for script in answered() {
        let mut market = "0".to_string();
        for (question, answer) in script {
            let words: Vec<&str> = question.split(' ').collect();
            let taken = answer.starts_with("0 ");
            let expected = match words[0] {
                _ if answer == "?" => market.clone(),
                "new" => "0".to_string(),
                "m-state" => words[3].to_string(),
                "m-open" | "m-restart" => {
                    let key = (words[0].to_string(), taken, words[3] == market);
                    *seen.entry(key).or_default() += 1;
                    match taken {
                        true => words[3].to_string(),
                        false => market.clone(),
                    }
                }
                _ => market.clone(),
            };
            let after = market_of(&question, &answer).filter(|_| answer != "?");
            assert_eq!(after.unwrap_or_else(|| expected.clone()), expected);
            market = expected;
        }
    }
    assert_eq!(seen.len(), 8);
    assert!(seen.values().all(|count| *count >= 5), "{:?}", seen);
}

/// In a live session the New Order of the other market is 4, whatever else is wrong with its record, but 13 if
/// that is short, and 20 comes first. A message of one market is 8 to the venue where it has a bit of that
/// market alone, and 4 where it has the type of the record.
#[test]
fn orders_of_the_other_market() {
    let mut seen: BTreeMap<(String, String, String), BTreeSet<u8>> = BTreeMap::new();
    for script in answered() {
        let (mut phase, mut market) = (0, "0".to_string());
        for (question, answer) in script {
            let number = ask::number_of(answer.split(' ').next().unwrap()).parse();
            let words: Vec<&str> = question.split(' ').collect();
            let asked = match words[..] {
                ["m-order", record, _] if phase == 3 => Some((market.clone(), record.get(..2))),
                ["v-order", of, bytes] => Some((of.to_string(), bytes.get(8..10))),
                _ => None,
            };
            if let (Some((market, Some(type_byte))), Ok(number)) = (asked, number) {
                let key = (words[0].to_string(), market, type_byte.to_string());
                seen.entry(key).or_default().insert(number);
            }
            phase = phase_of(&question, &answer).unwrap_or(phase);
            market = market_of(&question, &answer)
                .filter(|_| answer != "?")
                .unwrap_or(market);
            if question == "new" {
                (phase, market) = (0, "0".to_string());
            }
        }
    }
    for (call, market, type_byte, expected) in [
        ("m-order", "0", "B8", "4 13 20"),
        ("m-order", "1", "38", "4 13 20"),
        ("v-order", "0", "B8", "3 4 16"),
        ("v-order", "1", "B8", "3 4 16"),
    ] {
        let key = (call.to_string(), market.to_string(), type_byte.to_string());
        let expected: BTreeSet<u8> = expected.split(' ').map(|n| n.parse().unwrap()).collect();
        let found = seen.get(&key).cloned().unwrap_or_default();
        assert!(found.is_subset(&expected), "{:?} {:?}", key, found);
        assert!(found.contains(&4), "{:?} {:?}", key, found);
    }
    for market in ["0", "1"] {
        for type_byte in ["39", "3A", "47"] {
            for call in ["m-order", "v-order"] {
                let key = (call.to_string(), market.to_string(), type_byte.to_string());
                let found = seen.get(&key).cloned().unwrap_or_default();
                let expected = BTreeSet::from([0, 5, 7, 8, 10]);
                assert!(found.is_superset(&expected), "{:?} {:?}", key, found);
            }
        }
    }
}

/// How the replays of a script ended: `C` completed, `b` broken, `l` by a Logout, `r` by a
/// restart; `n` is a login that was not accepted.
fn replays(script: &[(String, String)]) -> String {
    let mut ends = String::new();
    let mut phase = 0;
    for (question, answer) in script {
        let after = match phase_of(question, answer) {
            Some(after) => after,
            None => continue,
        };
        let call = question.split(' ').next().unwrap_or_default();
        let end = match (phase, after, call) {
            (2, 3, "m-get") => "C",
            (2, 0, "m-break") => "b",
            (2, 0, "m-get") => "l",
            (2, 0, "m-restart") => "r",
            (1, 0, "m-get" | "m-response") => "n",
            _ => "",
        };
        ends.push_str(end);
        phase = after;
    }
    ends
}

/// Replays break once and again and are then completed, and end in every other way too.
#[test]
fn ends_of_replays() {
    let ends: Vec<String> = answered().iter().map(|script| replays(script)).collect();
    let count = |what: &str| -> usize { ends.iter().map(|ends| ends.matches(what).count()).sum() };
    assert!(count("C") > 80);
    for (what, least) in [("bbC", 15), ("rbC", 5), ("brC", 5), ("l", 10), ("n", 20)] {
        assert!(count(what) >= least, "{} {}", what, count(what));
    }
}

/// What is asked about last messages changes nothing. In each phase it gets each of its numbers. Where the book is the
/// one that a restart would find, and is lent whole, the answer is what a reading from the front finds last.
#[test]
fn last_messages() {
    let mut seen: BTreeMap<u8, BTreeSet<String>> = BTreeMap::new();
    let mut bench = Bench::new();
    let (mut read, mut found) = (0, 0);
    for (question, answer) in answered().concat() {
        let before = bench.member.clone();
        assert_eq!(ask::answer_on(&mut bench, question.as_bytes()), answer);
        let words: Vec<&str> = question.split(' ').collect();
        let (unit, room) = match words[..] {
            ["m-last", unit, room] if answer != "?" => (unit, room),
            _ => continue,
        };
        assert_eq!(bench.member, before);
        let number = answer.split(' ').next().unwrap().to_string();
        assert_eq!(number != "0", answer.ends_with(" 0 -"));
        let phase = before.phase as u8;
        seen.entry(phase).or_default().insert(number);
        let book = before.book;
        let (unit, room): (u8, usize) = (unit.parse().unwrap(), room.parse().unwrap());
        if room < book.length {
            continue;
        }
        let bytes = &bench.book[..book.length];
        if book::restart(book.date, bytes) == Ok(book) {
            let lines = listing::last_lines(unit, bytes);
            let words: Vec<&str> = answer.split(' ').collect();
            match &lines[..] {
                [_, at] => {
                    let size = words[2].len() / 2;
                    assert_eq!(*at, format!("at {} {}", words[1], size));
                    found += 1;
                }
                _ => assert_eq!(lines, [words[0]]),
            }
            read += 1;
        }
    }
    assert!(read > 400 && found > 250, "{} {}", read, found);
    assert_eq!(seen.len(), 4);
    for numbers in seen.values() {
        let all: Vec<&str> = numbers.iter().map(String::as_str).collect();
        assert_eq!(all, ["0", "18", "26", "5"]);
    }
}

#[test]
fn more_from_the_seed() {
    let first: Vec<String> = more(7, 3).collect();
    assert_eq!(first, more(7, 5).take(3).collect::<Vec<String>>());
    assert_ne!(first, more(8, 3).collect::<Vec<String>>());
    for text in first {
        assert!(text.starts_with("new\n") && text.ends_with("v-book\n"));
        assert!(text.lines().count() >= 500);
        assert!(text.lines().all(|line| line.len() <= 8_000));
    }
}
