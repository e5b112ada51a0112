use crate::ask;
use crate::hex;
use crate::questions::judged;
use crate::questions::made::{random_book, MARK};
use crate::random::Random;
use crate::rules::book;

/// What is made here is what the rules take, and every cut of it is whole or torn.
#[test]
fn made_books_restart() {
    let mut random = Random::new(120);
    for _ in 0..150 {
        let made = random_book(&mut random);
        for end in MARK..=made.bytes.len() {
            let book = book::restart(made.date, &made.bytes[..end]).unwrap();
            let ends = made.starts[1..].iter().copied();
            let good = ends.chain([made.bytes.len()]).filter(|place| *place <= end);
            assert_eq!(Some(book.length), good.max());
        }
        let book = book::restart(made.date, &made.bytes).unwrap();
        assert_eq!((book.last, book.count), (made.last, made.count));
        for unit in 1..=32 {
            let entry = made.entries[unit].to_le_bytes();
            assert_eq!(book.table[4 * unit - 4..4 * unit], entry);
        }
    }
}

/// A book grown by `append` and `close` is the book as it is made.
#[test]
fn grown_books() {
    let mut random = Random::new(121);
    for _ in 0..150 {
        let made = random_book(&mut random);
        let mut bytes = vec![0xEE; made.bytes.len()];
        assert_eq!(book::open(made.date, &mut bytes), Ok(()));
        let mut book = book::restart(made.date, &bytes[..MARK]).unwrap();
        for start in &made.starts[1..] {
            assert_eq!(book.length, *start);
            match made.bytes[*start] {
                0 => book.close(&mut bytes),
                _ => book.append(&mut bytes, &made.bytes[*start..]).unwrap(),
            }
        }
        assert_eq!(bytes, made.bytes);
        assert_eq!(book::restart(made.date, &bytes), Ok(book));
    }
}

/// Only what is appended or marked changes, and the book after the call restarts with that.
#[test]
fn buffers_after_the_calls() {
    let lines = judged::asked_by(super::ask);
    let mut grown = 0;
    for line in &lines {
        let answer = ask::answer(line.as_bytes());
        let (words, answer): (Vec<&str>, Vec<&str>) =
            (line.split(' ').collect(), answer.split(' ').collect());
        let (length, after) = match (words[0], answer.as_slice()) {
            ("append", ["0", _, length, after]) => (length, after),
            ("close", ["0", length, after]) => (length, after),
            _ => continue,
        };
        let date = words[1].parse().unwrap();
        let length: usize = length.parse().unwrap();
        let room: usize = words[3].parse().unwrap();
        let bytes = hex::read(words[2]).unwrap();
        let before = book::restart(date, &bytes).unwrap();
        let after = hex::read(after).unwrap();
        let buffer = [bytes, vec![0xFF; room]].concat();
        assert_eq!(after[..before.length], buffer[..before.length]);
        assert_eq!(after[length..], buffer[length..]);
        let book = book::restart(date, &after[..length]).unwrap();
        assert_eq!(book.length, length);
        grown += usize::from(length > before.length);
        let count = u32::from(words[0] == "append" && length > before.length);
        assert_eq!(book.count, before.count + count);
    }
    assert!(grown > 300);
    let sizes: Vec<usize> = lines[lines.len() - 6..].iter().map(String::len).collect();
    assert_eq!(sizes, [7_999, 8_001, 8_000, 8_002, 8_000, 8_002]);
}
