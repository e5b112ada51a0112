use super::*;
use crate::ask;
use crate::questions::judged;
use crate::questions::made::random_book;
use std::collections::{BTreeMap, BTreeSet};

/// What the last message of a unit is by the parts that a book is made of.
fn expected(book: &Made, unit: u8) -> String {
    if !(1..=32).contains(&unit) {
        return "5 0 -".to_string();
    }
    let place = book.places[usize::from(unit)] as usize;
    if place == 0 {
        return "26 0 -".to_string();
    }
    let size = usize::from(book.bytes[place + 2]) + 256 * usize::from(book.bytes[place + 3]) + 2;
    let message = hex::write(&book.bytes[place..place + size]);
    format!("0 {} {}", place, message)
}

/// Every cut of random books: by restart, by the state that the cut book has, and by the listing.
#[test]
fn made_books_and_their_cuts() {
    let mut random = Random::new(127);
    for _ in 0..60 {
        let book = random_book(&mut random);
        for end in MARK..=book.bytes.len() {
            let bytes = &book.bytes[..end];
            let cut = book.cut(end);
            let unit = some_unit(&mut random, &book);
            let expected = expected(&cut, unit);
            let answer = ask::answer(last(book.date, unit, bytes).as_bytes());
            assert_eq!(answer, format!("0 {}", expected));
            let state = State::of(&cut).bytes();
            let answer = ask::answer(state::line(&state, unit, bytes).as_bytes());
            assert_eq!(answer, expected);
            let answer = ask::answer(line(unit, bytes).as_bytes());
            let words: Vec<&str> = expected.split(' ').collect();
            match answer.split_once('|') {
                Some((_, at)) => {
                    let size = words[2].len() / 2;
                    assert_eq!(at, format!("at {} {}", words[1], size));
                }
                None => assert_eq!(answer, words[0]),
            }
        }
    }
}

/// The two ways to ask the same book agree, and the line is that of the listing.
#[test]
fn lines_and_messages() {
    let mut found = 0;
    for question in judged::asked_by(super::ask) {
        let words: Vec<&str> = question.split(' ').collect();
        let (unit, bytes) = match words[..] {
            ["last", _, unit, bytes] | ["last-line", unit, bytes] => (unit, bytes),
            _ => continue,
        };
        let answer = ask::answer(format!("last-line {} {}", unit, bytes).as_bytes());
        let book = hex::read(bytes).unwrap();
        let date = book
            .get(4..8)
            .map_or(DATE, |date| u32::from_le_bytes(date.try_into().unwrap()));
        let other = ask::answer(format!("last {} {} {}", date, unit, bytes).as_bytes());
        let listed = ask::answer(format!("list {}", bytes).as_bytes());
        let ended = listed.rsplit('|').next().unwrap();
        let other: Vec<&str> = other.split(' ').collect();
        match other[..] {
            ["0", "0", place, message] => {
                let at = format!("at {} {}", place, message.len() / 2);
                let (line, second) = answer.split_once('|').unwrap();
                assert_eq!(second, at);
                let start = format!(
                    "{} {} ",
                    &message[8..10],
                    u8::from_str_radix(&message[10..12], 16).unwrap()
                );
                assert!(line.starts_with(&start));
                let of_unit = listed.split('|').filter(|line| line.starts_with('2'));
                let of_unit = of_unit.filter(|line| line.split(' ').nth(1) == Some(unit));
                assert_eq!(of_unit.last(), Some(line));
                found += 1;
            }
            ["0", number, "0", "-"] => assert_eq!(answer, number),
            _ if answer == "5" => assert!(!(1..=32).contains(&unit.parse::<u8>().unwrap())),
            _ => assert_eq!(answer, ended),
        }
    }
    assert!(found > 150);
}

/// Each call gets each of its numbers; what is refused has no place and no message.
#[test]
fn numbers() {
    let mut seen: BTreeMap<String, BTreeSet<String>> = BTreeMap::new();
    for question in judged::asked_by(super::ask) {
        let answer = ask::answer(question.as_bytes());
        let call = question.split(' ').next().unwrap();
        let words: Vec<&str> = answer.split(' ').collect();
        let words = match (call, &words[..]) {
            ("last", ["0", rest @ ..]) => rest,
            ("last-state", rest) => rest,
            _ => continue,
        };
        let number = words[0].to_string();
        assert_eq!(words[0] != "0", words[1..] == ["0", "-"]);
        seen.entry(call.to_string()).or_default().insert(number);
    }
    let numbers = |text: &str| text.split(' ').map(str::to_string).collect();
    assert_eq!(seen.remove("last"), Some(numbers("0 5 26")));
    assert_eq!(seen.remove("last-state"), Some(numbers("0 5 13 18 26")));
    assert!(seen.is_empty());
}

#[test]
fn a_fair_size() {
    let lines = judged::asked_by(super::ask);
    assert!(lines.iter().all(|line| line.len() <= 8_000));
    assert!(lines.iter().any(|line| line.len() > 7_990));
    let size: usize = lines.iter().map(|line| line.len() + 1).sum();
    assert!(size < 300_000);
}
