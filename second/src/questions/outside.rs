//! Lines outside the format, and lines that are just inside it.

use crate::examples;
use crate::hex;
use crate::rules::read;
use crate::rules::types::MEMBER;

pub fn ask(lines: &mut Vec<String>) {
    for part in [OUTSIDE, INSIDE, READ, READ_INTO, WRITE, LAST] {
        lines.extend(part.iter().map(|line| line.to_string()));
    }
    sizes(lines);
    longest(lines);
    longest_of_reading(lines);
    longest_of_writing(lines);
}

const OUTSIDE: &[&str] = &[
    // No call, or none of that name.
    "",
    " ",
    "?",
    "-",
    "0",
    "hello",
    "frames -",
    "fram -",
    "Frame -",
    "FRAME -",
    "days 20240229",
    "step- 1 1",
    "# day 20240229",
    // Too few arguments.
    "frame",
    "get",
    "get 2",
    "get 2 00",
    "put 2 0000 0",
    "price",
    "kind A",
    "filled A",
    "kind 41",
    "step - 1",
    "step 1 1",
    "day",
    "year",
    "due 1",
    "silent 1",
    // Too many.
    "frame - -",
    "get 2 00 0 0",
    "put 2 0000 0 0 0",
    "price 0000000000000000 0",
    "kind A 41 41",
    "filled A 41 0",
    "step - 1 1 1",
    "day 20240229 20240229",
    "year 2024 1",
    "due 1 2 3",
    "silent 1 2 3",
    // Spaces.
    " frame -",
    "frame  -",
    "frame - ",
    "frame ",
    "get 2  00 0",
    "get 2 00 0 ",
    "day  20240229",
    "day 20240229 ",
    " day 20240229",
    "due 1  2",
    "due  1 2",
    "kind A ",
    "kind  41",
    "filled A  41",
    "step - 1 ",
    "day\t20240229",
    "day 20240229\t",
    // BYTES.
    "frame ba",
    "frame BAba",
    "frame bABA",
    "frame B",
    "frame BAB",
    "frame BA BA",
    "frame 0xBA",
    "frame BG",
    "frame GB",
    "frame B/",
    "frame B:",
    "frame B@",
    "frame --",
    "frame -BA",
    "frame BA-",
    "kind A 4a",
    "get 2 0 0",
    "get 2 f0 0",
    "put 2 000 0 0",
    "step 0 1 1",
    "price 000000000000000",
    "price 00000000000000",
    "price 000000000000000000",
    "price 00000000000000ff",
    "price -",
    // WIDTH and KIND.
    "get 0 00 0",
    "get 1 00 0",
    "get 3 00 0",
    "get 5 0000000000 0",
    "get 16 00 0",
    "get 24 00 0",
    "get - 00 0",
    "get two 00 0",
    "put 3 000000 0 0",
    "put 0 00 0 0",
    "put 1 00 0 0",
    "kind C 41",
    "kind a 41",
    "kind AA 41",
    "kind - 41",
    "kind 1 41",
    "kind n 41",
    "filled i 41",
    "filled X 41",
    "filled AN 41",
    "kind f 41",
    "kind FT 41",
    "filled FF 41",
    "kind d EFDB3201",
    "kind DD EFDB3201",
    "filled d EFDB3201",
    "filled D EFDB320",
    "kind D 20110319 -",
    // NUMBER: its characters and how many.
    "day -1",
    "day +1",
    "day -",
    "day 0x10",
    "day 2024_0229",
    "day 2024-02-29",
    "day 20240229.",
    "day 2O240229",
    "day 000000000000020240229",
    "day 100000000000000000000",
    "year -2024",
    "due -1 0",
    "due 0 -1",
    "due 000000000000000000001 0",
    "silent 0 A",
    "get 2 00 -1",
    "get 2 00 000000000000000000000",
    "put 2 0000 0 -1",
    "put 2 0000 -1 0",
    "step - -1 1",
    "step - 1 -1",
    // NUMBER past its greatest value.
    "day 4294967296",
    "day 99999999999999999999",
    "day 18446744073709551616",
    "day 18446744073729791845",
    "year 10000",
    "year 4294967296",
    "year 18446744073709553640",
    "due 4294967296 0",
    "due 0 4294967296",
    "silent 4294967296 0",
    "silent 0 4294967296",
    "get 2 00 18446744073709551616",
    "get 2 00 99999999999999999999",
    "put 2 0000 18446744073709551616 0",
    "put 2 0000 0 65536",
    "put 2 0000 0 4294967296",
    "put 4 00000000 0 4294967296",
    "put 4 00000000 0 18446744073709551616",
    "put 8 0000000000000000 0 18446744073709551616",
    "put 8 0000000000000000 0 99999999999999999999",
    "put 2 0000 9 65536",
    "step - 256 1",
    "step - 257 1",
    "step - 1 4294967296",
    "step - 1 4294967297",
    "step - 0 4294967296",
];

/// Zeros before a number are digits like others, up to twenty in all.
const INSIDE: &[&str] = &[
    "day 00000000000020240229",
    "day 00000000000020230229",
    "year 00000000000000002024",
    "due 00000000000000001000 00000000000000000000",
    "silent 00000000000000004999 0000",
    "get 2 0102 00000000000000000000",
    "get 2 0102 00000000000000000001",
    "put 2 0000 00 00065535",
    "put 4 00000000 0 00000000004294967295",
    "put 8 0000000000000000 0 18446744073709551615",
    "step - 000 0",
    "step - 0255 0",
    "step - 032 04294967295",
];

/// Of reading; the last five are just inside the format.
const READ: &[&str] = &[
    "read",
    "read ",
    "read 0",
    "read -",
    "read 0 ",
    "read 0 - -",
    "read 0 - 0",
    "read 0 1 -",
    "read  0 -",
    "read 0  -",
    "read 0 - ",
    " read 0 -",
    "Read 0 -",
    "READ 0 -",
    "reads 0 -",
    "read - 0",
    "read 256 -",
    "read 257 BABA",
    "read 4294967296 -",
    "read 18446744073709551616 -",
    "read -1 -",
    "read +1 -",
    "read 0x1 -",
    "read A -",
    "read 000000000000000000001 -",
    "read 0 B",
    "read 0 BAB",
    "read 0 ba",
    "read 0 BAbA",
    "read 0 BABA 08",
    "read 0 0",
    "read 0 -",
    "read 1 BA00",
    "read 255 BABA",
    "read 00 -",
    "read 00000000000000000255 BABA0700",
];

/// Of reading into a buffer; the last three are just inside the format.
const READ_INTO: &[&str] = &[
    "read-into",
    "read-into 0",
    "read-into 0 -",
    "read-into 0 - - -",
    "read-into 0 -  -",
    "read-into 0 - - ",
    "read-into 256 - -",
    "read-into - - 0",
    "read-into 0 BAB -",
    "read-into 0 - BAB",
    "read-into 0 ba -",
    "read-into 0 - ba",
    "Read-into 0 - -",
    "readinto 0 - -",
    "read-into 0 - -",
    "read-into 255 BABA FF",
    "read-into 1 BABA0800090000000000 -",
];

/// Of writing; the last four are just inside the format.
const WRITE: &[&str] = &[
    "write",
    "write 0",
    "write 0 -",
    "write - -",
    "write 0 - ",
    "write 0 - - -",
    "write 0 - - 0",
    "write  0 - -",
    "write 0  - -",
    "write 0 -  -",
    "write 0 - - ",
    " write 0 - -",
    "Write 0 - -",
    "WRITE 0 - -",
    "writes 0 - -",
    "write 256 - -",
    "write 4294967296 - -",
    "write 18446744073709551616 - -",
    "write -1 - -",
    "write +1 - -",
    "write A - -",
    "write 000000000000000000001 - -",
    "write 0 3 -",
    "write 0 - 3",
    "write 0 2c -",
    "write 0 - 2c",
    "write 0 38-00 -",
    "write 0 - 00-",
    "write 0 - -",
    "write 1 2C 0102",
    "write 255 - 00",
    "write 00000000000000000255 38 FF",
];

/// Of the last message of a unit; the last nine are just inside the format.
const LAST: &[&str] = &[
    "last",
    "last 20250819",
    "last 20250819 1",
    "last 20250819 -",
    "last 20250819 - 1",
    "last 20250819 1 - -",
    "last 20250819  1 -",
    "last 20250819 1  -",
    "last 20250819 1 - ",
    " last 20250819 1 -",
    "Last 20250819 1 -",
    "LAST 20250819 1 -",
    "lasts 20250819 1 -",
    "last 20250819 256 -",
    "last 20250819 257 -",
    "last 20250819 4294967297 -",
    "last 20250819 -1 -",
    "last 20250819 +1 -",
    "last 20250819 A -",
    "last 20250819 000000000000000000001 -",
    "last 4294967296 1 -",
    "last -1 1 -",
    "last 20250819 1 0",
    "last 20250819 1 BAB",
    "last 20250819 1 ba",
    "last-state",
    "last-state -",
    "last-state - 1",
    "last-state 1 -",
    "last-state - - -",
    "last-state - 1 - -",
    "last-state  - 1 -",
    "last-state - 1 - ",
    "last-state - 256 -",
    "last-state - 18446744073709551616 -",
    "last-state - -1 -",
    "last-state 0 1 -",
    "last-state 0a 1 -",
    "last-state - 1 0",
    "last-state - 1 bA",
    "last-states - 1 -",
    "Last-state - 1 -",
    "laststate - 1 -",
    "last-line",
    "last-line 1",
    "last-line -",
    "last-line - 1",
    "last-line - -",
    "last-line 1 - -",
    "last-line 20250819 1 -",
    "last-line  1 -",
    "last-line 1  -",
    "last-line 1 - ",
    "last-line 256 -",
    "last-line 4294967296 -",
    "last-line -1 -",
    "last-line 0x1 -",
    "last-line 000000000000000000001 -",
    "last-line 1 0",
    "last-line 1 BAB",
    "last-line 1 ba",
    "last-lines 1 -",
    "Last-line 1 -",
    "lastline 1 -",
    "last- 1 -",
    "last 20250819 255 -",
    "last 00000000000020250819 00000000000000000001 -",
    "last 4294967295 1 -",
    "last-state - 255 -",
    "last-state - 00000000000000000032 -",
    "last-state FF 1 FF",
    "last-line 255 -",
    "last-line 00000000000000000032 -",
    "last-line 00 -",
];

/// A line of `size` characters: `head`, the zero bytes that fill it, `tail`.
fn padded(head: &str, tail: &str, size: usize) -> String {
    let count = (size - head.len() - tail.len()) / 2;
    let line = format!("{}{}{}", head, "00".repeat(count), tail);
    assert_eq!(line.len(), size);
    line
}

/// Lines of several calls that hold a few thousand characters.
fn sizes(lines: &mut Vec<String>) {
    lines.push(padded("frame BABA0A003701", "", 4_096));
    lines.push(padded("kind T 41", "", 4_097));
    lines.push(padded("filled T 41", "42", 4_095));
}

/// The longest lines in the format, and lines that would be in it but for their size.
fn longest(lines: &mut Vec<String>) {
    lines.push(padded("frame BABA0A003701", "", 8_000));
    lines.push(padded("frame BABA0A003701", "", 8_002));
    lines.push(padded("get 2 ", "0102 3992", 7_999));
    lines.push(padded("get 2 ", "0102 3993", 8_001));
    lines.push(padded("put 2 ", " 3990 258", 7_999));
    lines.push(padded("put 2 ", " 3991 258", 7_999));
    lines.push(padded("put 2 ", " 3991 258", 8_001));
    lines.push(padded("step ", " 32 1", 8_000));
    lines.push(padded("step ", " 32 1", 8_002));
    lines.push(padded("kind T 41", "", 7_999));
    lines.push(padded("kind T 41", "", 8_001));
}

/// A valid message and zeros after it, in a line as long as it may be, and in a longer one.
fn longest_of_reading(lines: &mut Vec<String>) {
    let cancel = hex::write(&examples::cancel());
    lines.push(padded(&format!("read 00 {}", cancel), "", 8_000));
    lines.push(padded(&format!("read 0 {}", cancel), "", 8_001));
    let login = hex::write(&examples::login());
    lines.push(padded(&format!("read 00 {}", login), "", 8_000));
    lines.push(padded(&format!("read 0 {}", login), "", 8_001));
}

/// Long buffers and long records, as long as a line may be, and longer.
fn longest_of_writing(lines: &mut Vec<String>) {
    for (message, total) in [(examples::cancel(), 36), (examples::login(), 69)] {
        let record = read::message(MEMBER, &message).expect("a valid message");
        let record = hex::write(&record);
        lines.push(padded(&format!("write 0 {} FF", record), "", 7_999));
        let tail = format!("FF {}", "AA".repeat(total));
        lines.push(padded(&format!("write 00 {}", record), &tail, 8_000));
        lines.push(padded(&format!("write 00 {}", record), &tail, 8_002));
    }
}
