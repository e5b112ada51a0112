//! Runs `second holds` on files: what it prints, and its exit status.

use std::fs;
use std::path::{Path, PathBuf};
use std::process::{Command, Output};

const DATE: &str = "20250819";
/// The first mark of a book of this date, and the mark after it and one message of 48 bytes.
const FIRST_MARK: [u8; 16] = [0, 0, 0, 0, 0xC3, 0, 0x35, 1, 0, 0, 0, 0, 0, 0, 0, 0];
const SECOND_MARK: [u8; 16] = [0, 0, 0, 0, 0xC3, 0, 0x35, 1, 1, 0, 0, 0, 64, 0, 0, 0];

/// The least acknowledgment, whose time, OrderID and reserved byte are zero.
fn message(unit: u8, number: u8) -> Vec<u8> {
    let mut message = vec![0xBA, 0xBA, 46, 0, 0x25, unit, number, 0, 0, 0];
    message.resize(18, 0);
    message.extend(b"ABC123");
    message.resize(48, 0);
    message
}

/// A file of this test run; each test has its own names.
fn file(name: &str, parts: &[&[u8]]) -> PathBuf {
    let path = Path::new(env!("CARGO_TARGET_TMPDIR")).join(name);
    fs::write(&path, parts.concat()).unwrap();
    path
}

fn run(arguments: &[&str]) -> Output {
    let program = env!("CARGO_BIN_EXE_second");
    Command::new(program).args(arguments).output().unwrap()
}

fn holds(date: &str, book: &Path, log: &Path) -> Output {
    run(&["holds", date, book.to_str().unwrap(), log.to_str().unwrap()])
}

/// What goes to standard output alone.
fn check(output: Output, printed: &str, status: i32) {
    assert_eq!(String::from_utf8(output.stdout).unwrap(), printed);
    assert_eq!(String::from_utf8(output.stderr).unwrap(), "");
    assert_eq!(output.status.code(), Some(status));
}

#[test]
fn each_status() {
    let (one, two) = (message(3, 1), message(3, 2));
    let book = file("book", &[&FIRST_MARK, &one, &SECOND_MARK, &two, &[0xBA]]);
    let less = file("less", &[&FIRST_MARK, &one, &SECOND_MARK, &two[..47]]);
    let log = file("log", &[&one, &two, &one[..9]]);
    let bad = file("bad", &[&one, &one]);
    let empty = file("empty", &[]);
    let same = "the same: 2 messages of 1 units\n";
    check(holds(DATE, &book, &log), same, 0);
    let part = "unit 3: the book has 1 of 2\na first part: 1 of 2 messages\n";
    check(holds(DATE, &less, &log), part, 3);
    let other = "unit 3: the book has 2, the log 0\nother messages\n";
    check(holds(DATE, &book, &empty), other, 1);
    check(holds("20250820", &book, &log), "book: 17\n", 1);
    check(holds("20250832", &book, &log), "book: 19\n", 1);
    check(holds(DATE, &empty, &log), "book: 22\n", 1);
    check(holds(DATE, &log, &log), "book: 18\n", 1);
    check(holds(DATE, &book, &bad), "log: 14 at 48\n", 1);
    check(holds(DATE, &book, &book), "log: 1 at 0\n", 1);
}

/// The message names the file, and nothing else is printed.
#[test]
fn files_that_cannot_be_read() {
    let here = file("here", &[&FIRST_MARK]);
    let missing = Path::new(env!("CARGO_TARGET_TMPDIR")).join("missing");
    let folder = Path::new(env!("CARGO_TARGET_TMPDIR"));
    for bad in [missing.as_path(), folder] {
        for output in [holds(DATE, bad, &here), holds(DATE, &here, bad)] {
            let told = String::from_utf8(output.stderr).unwrap();
            assert!(told.starts_with(&format!("second: {}: ", bad.display())));
            assert!(output.stdout.is_empty());
            assert_eq!(output.status.code(), Some(1));
        }
    }
}

/// Wrong arguments are told before any file is looked for.
#[test]
fn wrong_arguments() {
    for arguments in [
        &["holds"][..],
        &["holds", DATE, "book"],
        &["holds", DATE, "book", "log", "more"],
        &["holds", "2025", "book", "log"],
        &["holds", "2025-08-19", "book", "log"],
        &["holds", "today", "book", "log"],
    ] {
        let output = run(arguments);
        let told = String::from_utf8(output.stderr).unwrap();
        assert!(told.starts_with("usage: "), "{:?}", arguments);
        assert!(output.stdout.is_empty());
        assert_eq!(output.status.code(), Some(2));
    }
}
