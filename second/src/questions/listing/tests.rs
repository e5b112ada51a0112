use super::line;
use crate::ask;
use crate::hex;
use crate::questions::judged;
use crate::questions::made::{random_book, Made, DATE, MARK};
use crate::random::Random;
use crate::rules::book;
use std::collections::BTreeSet;

/// The listing of a book as it is made, by its parts and not by the rules.
fn expected(book: &Made, end: usize) -> String {
    let mut lines = Vec::new();
    let number = |place: usize| {
        let bytes = book.bytes[place..place + 4].try_into().unwrap();
        u32::from_le_bytes(bytes)
    };
    let mut good = 0;
    let ends = book.starts[1..].iter().copied().chain([book.bytes.len()]);
    for (start, after) in book.starts.iter().copied().zip(ends) {
        if after > end {
            break;
        }
        good = after;
        let part = &book.bytes[start..after];
        if part[0] == 0 {
            let numbers = [number(start + 4), number(start + 8), number(start + 12)];
            let text: Vec<String> = numbers.iter().map(u32::to_string).collect();
            lines.push(format!("mark {}", text.join(" ")));
            continue;
        }
        let identifier = String::from_utf8(part[18..38].to_vec()).unwrap();
        lines.push(format!(
            "{:X} {} {} {}",
            part[4],
            part[5],
            number(start + 6),
            identifier.trim_end_matches('\0')
        ));
    }
    lines.push(format!("end {} {}", good, end - good));
    lines.join("|")
}

/// The answer with the prices left out.
fn without_prices(answer: &str) -> String {
    let lines: Vec<&str> = answer
        .split('|')
        .map(|line| match line.starts_with('2') {
            true => line.rsplit_once(' ').unwrap().0,
            false => line,
        })
        .collect();
    lines.join("|")
}

#[test]
fn made_books_and_their_cuts() {
    let mut random = Random::new(122);
    for _ in 0..120 {
        let made = random_book(&mut random);
        for end in MARK..=made.bytes.len() {
            let answer = ask::answer(line(&made.bytes[..end]).as_bytes());
            assert_eq!(without_prices(&answer), expected(&made, end));
        }
    }
}

/// A listing and a restart for the book's own date agree: on the refusal, or on the length.
#[test]
fn listings_and_restarts() {
    let mut whole = 0;
    let mut refused = 0;
    for question in judged::asked_by(super::ask) {
        let answer = ask::answer(question.as_bytes());
        if answer == "?" {
            continue;
        }
        let bytes = hex::read(question.strip_prefix("list ").unwrap()).unwrap();
        let date = bytes
            .get(4..8)
            .map_or(DATE, |date| u32::from_le_bytes(date.try_into().unwrap()));
        let last = answer.rsplit('|').next().unwrap();
        match book::restart(date, &bytes) {
            Ok(book) => {
                let torn = bytes.len() - book.length;
                assert_eq!(last, format!("end {} {}", book.length, torn));
                let messages = answer.split('|').filter(|line| line.starts_with('2'));
                assert_eq!(messages.count(), book.count as usize);
                whole += 1;
            }
            Err(refusal) => {
                // 19 is asked for a date that is no day: the first mark is then bad.
                let number = match (refusal.number(), bytes.len() < MARK) {
                    (19, true) => 22,
                    (19, false) => 18,
                    (number, _) => number,
                };
                // A place may follow 18.
                assert_eq!(last.split(' ').next(), Some(&number.to_string()[..]));
                refused += 1;
            }
        }
    }
    assert!(whole > 600 && refused > 500);
}

/// Each price comes in both types, and so does `-`.
#[test]
fn each_price() {
    let mut seen = BTreeSet::new();
    for question in judged::asked_by(super::ask) {
        for line in ask::answer(question.as_bytes()).split('|') {
            if let [type_byte, _, _, _, price] = line.split(' ').collect::<Vec<_>>()[..] {
                seen.insert(format!("{} {}", type_byte, price));
            }
        }
    }
    for type_byte in ["25", "2C"] {
        for price in [
            "-",
            "0.0000",
            "-0.0001",
            "0.9999",
            "-1.0000",
            "123.4500",
            "-12.3400",
            "429496.7295",
            "922337203685477.5807",
            "-922337203685477.5808",
        ] {
            let pair = format!("{} {}", type_byte, price);
            assert!(seen.contains(&pair), "{}", pair);
        }
    }
}
