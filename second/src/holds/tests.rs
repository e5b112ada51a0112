//! Books and logs with what is printed of them.

use super::*;
use crate::examples;

const DATE: u32 = 20_250_819;
/// Stands among the messages of a book for the mark of a session's end.
const SESSION_END: &[u8] = &[];
/// The bytes of an acknowledgment and of an execution.
const ACKNOWLEDGMENT: usize = 57;
const EXECUTION: usize = 85;

fn numbered(mut message: Vec<u8>, unit: u8, number: u32) -> Vec<u8> {
    message[5] = unit;
    message[6..10].copy_from_slice(&number.to_le_bytes());
    message
}

fn acknowledgment(unit: u8, number: u32) -> Vec<u8> {
    numbered(examples::booked_acknowledgment(), unit, number)
}

fn execution(unit: u8, number: u32) -> Vec<u8> {
    numbered(examples::execution(), unit, number)
}

fn with_byte(mut bytes: Vec<u8>, place: usize, byte: u8) -> Vec<u8> {
    bytes[place] = byte;
    bytes
}

/// Three messages of unit 1, two of unit 2, one of unit 32.
fn messages() -> Vec<Vec<u8>> {
    vec![
        acknowledgment(1, 1),
        acknowledgment(2, 1),
        execution(1, 2),
        acknowledgment(32, 1),
        execution(2, 2),
        acknowledgment(1, 3),
    ]
}

/// A book as a session writes it.
fn book_of<T: AsRef<[u8]>>(parts: &[T]) -> Vec<u8> {
    let mut buffer = vec![0xFF; 4_096];
    book::open(DATE, &mut buffer).unwrap();
    let mut book = book::opened(DATE);
    for part in parts {
        match part.as_ref() {
            SESSION_END => book.close(&mut buffer),
            message => book.append(&mut buffer, message).unwrap(),
        }
    }
    buffer.truncate(book.length);
    buffer
}

fn check(book: &[u8], log: &[u8], lines: &[&str], status: u8) {
    let found = answer(DATE, book, log);
    assert_eq!((found.lines, found.status), (owned(lines), status));
}

fn owned(lines: &[&str]) -> Vec<String> {
    lines.iter().map(|line| line.to_string()).collect()
}

#[test]
fn the_same() {
    let messages = messages();
    let lines = ["the same: 6 messages of 3 units"];
    check(&book_of(&messages), &messages.concat(), &lines, 0);
}

#[test]
fn fresh_book() {
    let fresh = book_of::<&[u8]>(&[]);
    check(&fresh, &[], &["the same: 0 messages of 0 units"], 0);
    check(
        &fresh,
        &[acknowledgment(7, 1), acknowledgment(7, 2)].concat(),
        &[
            "unit 7: the book has 0 of 2",
            "a first part: 0 of 2 messages",
        ],
        3,
    );
    let log = &[0xBA, 0xBA, 8];
    check(&fresh, log, &["the same: 0 messages of 0 units"], 0);
}

#[test]
fn all_units() {
    let messages: Vec<Vec<u8>> = (1..=UNITS).map(|unit| execution(unit, 1)).collect();
    let lines = ["the same: 32 messages of 32 units"];
    check(&book_of(&messages), &messages.concat(), &lines, 0);
}

/// Marks stand anywhere in the book, also two in a row and at its end.
#[test]
fn marks_between_messages() {
    let messages = messages();
    let mut parts = vec![SESSION_END];
    for message in &messages {
        parts.extend([&message[..], SESSION_END, SESSION_END]);
    }
    let lines = ["the same: 6 messages of 3 units"];
    check(&book_of(&parts), &messages.concat(), &lines, 0);
}

/// The units may be mixed otherwise in the log.
#[test]
fn another_order_of_units() {
    let book = book_of(&messages());
    let mut sorted = messages();
    sorted.sort_by_key(|message| message[5]);
    assert_ne!(sorted, messages());
    let lines = ["the same: 6 messages of 3 units"];
    check(&book, &sorted.concat(), &lines, 0);
    sorted.sort_by_key(|message| u8::MAX - message[5]);
    check(&book, &sorted.concat(), &lines, 0);
}

/// A cut message or mark at the end of either file plays no part, whatever it would have been.
#[test]
fn torn_tails() {
    let (book, log) = (book_of(&messages()), messages().concat());
    let lines = ["the same: 6 messages of 3 units"];
    let next = acknowledgment(2, 3);
    for end in 0..next.len() {
        let torn_book = [&book[..], &next[..end]].concat();
        let torn_log = [&log[..], &next[..end]].concat();
        check(&torn_book, &log, &lines, 0);
        check(&book, &torn_log, &lines, 0);
        check(&torn_book, &torn_log, &lines, 0);
    }
    let mark = &book[..16];
    for end in 0..mark.len() {
        check(&[&book[..], &mark[..end]].concat(), &log, &lines, 0);
    }
    let other_type = [&log[..], &examples::server_heartbeat()[..9]].concat();
    check(&book, &other_type, &lines, 0);
}

/// The book ends at any byte after its first mark, and holds a first part of each unit.
#[test]
fn every_cut_of_the_book() {
    let messages = messages();
    let book = book_of(&messages);
    for end in 16..=book.len() {
        let (mut held, mut at) = (0, 16);
        while held < messages.len() && at + messages[held].len() <= end {
            at += messages[held].len();
            held += 1;
        }
        let mut lines = Vec::new();
        for (unit, all) in [(1, 3), (2, 2), (32, 1)] {
            let has = messages[..held].iter().filter(|m| m[5] == unit).count();
            if has < all {
                lines.push(format!("unit {}: the book has {} of {}", unit, has, all));
            }
        }
        let (last, status) = match held {
            6 => ("the same: 6 messages of 3 units".to_string(), 0),
            _ => (format!("a first part: {} of 6 messages", held), 3),
        };
        lines.push(last);
        let expected = Answer { lines, status };
        assert_eq!(answer(DATE, &book[..end], &messages.concat()), expected);
    }
}

/// Other units may have all while one has less, also where the missing message is not the log's last.
#[test]
fn first_part_of_one_unit() {
    let mut held = messages();
    held.remove(3);
    check(
        &book_of(&held),
        &messages().concat(),
        &[
            "unit 32: the book has 0 of 1",
            "a first part: 5 of 6 messages",
        ],
        3,
    );
    held.remove(3);
    let lines = [
        "unit 2: the book has 1 of 2",
        "unit 32: the book has 0 of 1",
        "a first part: 4 of 6 messages",
    ];
    check(&book_of(&held), &messages().concat(), &lines, 3);
}

/// A byte of the time, the identifier, the reserved byte and the price. What is told is the message's number.
#[test]
fn a_byte_that_differs() {
    for place in [10, 17, 18, 46, 49, 56] {
        let mut other = messages();
        other[5][place] ^= 2;
        let lines = ["unit 1: message 3 differs", "other messages"];
        check(&book_of(&other), &messages().concat(), &lines, 1);
        check(&book_of(&messages()), &other.concat(), &lines, 1);
    }
}

/// No change of a byte of the log passes, whatever it leads to; one of the book may tear its tail.
#[test]
fn every_byte() {
    let (book, log) = (book_of(&messages()), messages().concat());
    for place in 0..log.len() {
        for bit in [1, 0x80] {
            let changed = log[place] ^ bit;
            let found = answer(DATE, &book, &with_byte(log.clone(), place, changed));
            assert_eq!(found.status, 1, "{}", place);
            let place = 16 + place;
            let found = answer(DATE, &with_byte(book.clone(), place, changed), &log);
            assert_ne!(found.status, 0, "{}", place);
        }
    }
}

/// Messages of different types or lengths under the same number. Only the first of a unit is told.
#[test]
fn other_messages_of_the_same_numbers() {
    let log = [execution(3, 1), acknowledgment(3, 2), execution(3, 3)].concat();
    let other = [acknowledgment(3, 1), execution(3, 2), execution(3, 3)];
    let lines = ["unit 3: message 1 differs", "other messages"];
    check(&book_of(&other), &log, &lines, 1);
    let least = numbered(examples::least_acknowledgment(), 3, 2);
    let other = [execution(3, 1), least, execution(3, 3)];
    let lines = ["unit 3: message 2 differs", "other messages"];
    check(&book_of(&other), &log, &lines, 1);
    check(&book_of(&other[..2]), &log, &lines, 1);
}

/// What is left out and numbered over is another message; what is only left out is a gap, which both
/// files are refused for.
#[test]
fn a_missing_message_in_the_middle() {
    let log = [acknowledgment(1, 1), execution(1, 2), acknowledgment(1, 3)];
    let numbered_over = [acknowledgment(1, 1), acknowledgment(1, 2)];
    let lines = ["unit 1: message 2 differs", "other messages"];
    check(&book_of(&numbered_over), &log.concat(), &lines, 1);
    let mut gap = book_of(&log);
    gap.drain(16 + ACKNOWLEDGMENT..16 + ACKNOWLEDGMENT + EXECUTION);
    check(&gap, &log.concat(), &["book: 18"], 1);
    check(&book_of(&log), &gap[16..], &["log: 15 at 57"], 1);
}

#[test]
fn extra_messages() {
    let log = messages().concat();
    let mut more = messages();
    more.push(execution(2, 3));
    let lines = ["unit 2: the book has 3, the log 2", "other messages"];
    check(&book_of(&more), &log, &lines, 1);
    more.push(execution(9, 1));
    let lines = [
        "unit 2: the book has 3, the log 2",
        "unit 9: the book has 1, the log 0",
        "other messages",
    ];
    check(&book_of(&more), &log, &lines, 1);
    let lines = ["unit 1: the book has 1, the log 0", "other messages"];
    check(&book_of(&more[..1]), &[], &lines, 1);
}

/// A message that the log has only a part of is one that it does not have.
#[test]
fn torn_log_of_a_whole_book() {
    let log = messages().concat();
    let lines = ["unit 1: the book has 3, the log 2", "other messages"];
    for cut in 1..=ACKNOWLEDGMENT {
        check(&book_of(&messages()), &log[..log.len() - cut], &lines, 1);
    }
}

/// Every unit that differs has its line, also one of which the book has a first part.
#[test]
fn differences_of_each_kind() {
    let mut held = messages();
    held[2][10] ^= 1;
    held.remove(4);
    held.push(acknowledgment(32, 2));
    let lines = [
        "unit 1: message 2 differs",
        "unit 2: the book has 1 of 2",
        "unit 32: the book has 2, the log 1",
        "other messages",
    ];
    check(&book_of(&held), &messages().concat(), &lines, 1);
}

/// Restart's order: 19, 22, 18 for the first mark, 17, 18. The log plays no part, good or not.
#[test]
fn refused_books() {
    let book = book_of(&messages());
    let bad_mark = with_byte(book.clone(), 8, 1);
    let bad_message = with_byte(book.clone(), 16 + 4, 0x26);
    let bad_end = [&book[..], &[1]].concat();
    for (date, book, line) in [
        (20_250_832, &book[..], "book: 19"),
        (20_250_832, &book[..15], "book: 19"),
        (DATE, &book[..15], "book: 22"),
        (DATE, &[], "book: 22"),
        (DATE + 1, &book[..15], "book: 22"),
        (DATE, &bad_mark, "book: 18"),
        (DATE + 1, &bad_mark, "book: 18"),
        (DATE + 1, &book, "book: 17"),
        (DATE + 1, &bad_message, "book: 17"),
        (DATE, &bad_message, "book: 18"),
        (DATE, &bad_end, "book: 18"),
        (DATE, &[&book[..], &book[..16]].concat(), "book: 18"),
        (DATE, &book[16..], "book: 18"),
    ] {
        for log in [&messages().concat()[..], &[], &[1]] {
            let expected = Answer {
                lines: owned(&[line]),
                status: 1,
            };
            assert_eq!(answer(date, book, log), expected);
        }
    }
}

/// The log's first fault and the start of the message that has it; 6 to 10 also tell the place in it.
#[test]
fn faults_of_the_log() {
    let fresh = book_of::<&[u8]>(&[]);
    let first = acknowledgment(1, 1);
    let changed = |place, byte| with_byte(acknowledgment(1, 2), place, byte);
    for (bad, fault) in [
        (changed(0, 0), "1"),
        (changed(1, 0), "1"),
        (changed(2, 7), "2"),
        (changed(3, 8), "2"),
        (changed(4, 0x26), "4"),
        (changed(5, 0), "5"),
        (changed(5, 33), "5"),
        (changed(2, 0x36), "6@56"),
        (changed(47, 16), "7@47"),
        (changed(48, 2), "8@48"),
        (changed(18, b','), "10@18"),
        (changed(6, 0), "14"),
        (changed(6, 1), "14"),
        (changed(6, 3), "15"),
        (changed(9, 1), "15"),
        (acknowledgment(2, 2), "15"),
        (examples::server_heartbeat(), "4"),
        (examples::order_rejected(), "4"),
        (examples::cancel_rejected(), "4"),
        (examples::modify_rejected(), "4"),
        (examples::new_order(), "4"),
        (fresh.clone(), "1"),
        (vec![0], "1"),
        (vec![0xBA, 0], "1"),
    ] {
        let line = format!("log: {} at 57", fault);
        check(&fresh, &[&first[..], &bad].concat(), &[&line], 1);
        let followed = [&first[..], &bad, &acknowledgment(1, 2)].concat();
        check(&fresh, &followed, &[&line], 1);
    }
    check(&fresh, &fresh, &["log: 1 at 0"], 1);
    check(&fresh, &acknowledgment(1, 2), &["log: 15 at 0"], 1);
}

/// A log has no more bytes than a book: what passes the limit, whole or torn, is 13.
#[test]
fn limit_of_the_log() {
    let fresh = book_of::<&[u8]>(&[]);
    let mut log = Vec::new();
    let most = LIMIT / EXECUTION;
    for number in 1..=most as u32 {
        log.extend(execution(5, number));
    }
    let end = log.len();
    log.extend(execution(5, most as u32 + 1));
    let line = format!("log: 13 at {}", end);
    check(&fresh, &log, &[&line], 1);
    check(&fresh, &log[..LIMIT + 1], &[&line], 1);
    let lines = [
        format!("unit 5: the book has 0 of {}", most),
        format!("a first part: 0 of {} messages", most),
    ];
    check(&fresh, &log[..LIMIT], &[&lines[0], &lines[1]], 3);
}

#[test]
fn dates() {
    assert_eq!(read_date("20250819"), Some(DATE));
    assert_eq!(read_date("00000000"), Some(0));
    for word in [
        "",
        "2025819",
        "020250819",
        "+2025819",
        "2025-8-9",
        "2025081x",
    ] {
        assert_eq!(read_date(word), None, "{}", word);
    }
}
