//! Questions of each call with their answers.

use super::*;

fn check(question: &str, expected: &str) {
    assert_eq!(answer(question.as_bytes()), expected, "{}", question);
}

#[test]
fn examples_of_document_01() {
    check("price 08E2010000000000", "12.3400");
    check("price F81DFEFFFFFFFFFF", "-12.3400");
    check("price FFFFFFFFFFFFFFFF", "-0.0001");
    check("price 0000000000000080", "-922337203685477.5808");
    let zero = "00".repeat(128);
    check(
        &format!("step {} 1 1", zero),
        &format!("0 01{}", "00".repeat(127)),
    );
    check(&format!("step {} 1 2", zero), &format!("15 {}", zero));
    check(&format!("step {} 1 0", zero), &format!("14 {}", zero));
    check("due 994 4294967290", "1");
    check("due 993 4294967290", "0");
    check("frame -", "3");
    check("frame BA00", "1");
}

#[test]
fn each_call() {
    check("frame BABA080037050403020199", "0 10 55 5 16909060");
    check("get 2 010203 1", "770");
    check("get 4 010203 18446744073709551615", "0");
    check("get 8 FFFFFFFFFFFFFFFF 0", "18446744073709551615");
    check("put 2 000000 1 258", "0 000201");
    check("put 2 000000 2 258", "13 000000");
    check("put 8 - 0 18446744073709551615", "13 -");
    check("kind A 4100", "1");
    check("kind A -", "1");
    check("filled A -", "0");
    check("filled I 40", "0");
    check("filled B 00000000", "0");
    check("step - 0 0", "5 -");
    check("step - 1 0", "13 -");
    check("kind D EFDB3201", "1");
    check("filled D EFDB3201", "1");
    check("kind D 95DB3201", "0");
    check("kind D 00000000", "0");
    check("kind D -", "0");
    check("filled D EFDB320100", "0");
    check("day 20000229", "0");
    check("day 20010229", "19");
    check("silent 5000 0", "1");
    check("silent 4999 0", "0");
    for (type_byte, told) in [(0x25, 1), (0x2C, 1), (0x26, 2), (0x29, 2), (0x2B, 2)] {
        check(&format!("told {}", type_byte), &told.to_string());
    }
    for other in [0, 0x08, 0x24, 0x27, 0x36, 0x37, 0x38, 0x48, 0xB8, 255] {
        check(&format!("told {}", other), "0");
    }
}

/// P8, its record by the table of README.md, and back; the record has 291 bytes.
#[test]
fn read_and_write() {
    let cancel = format!("BABA1D00390064000000414243313233{}00", "00".repeat(14));
    let record = format!("390064000000414243313233{}", "00".repeat(279));
    check(&format!("read 0 {}", cancel), &format!("0 {}", record));
    check(&format!("read 1 {}", cancel), "4");
    check(&format!("read 2 {}", cancel), &format!("0 {}", record));
    check(&format!("read 3 {}", cancel), "4");
    check(&format!("read 255 {}EE", &cancel[..60]), "4");
    check(&format!("read 255 {}", &cancel[..60]), "3");
    check(&format!("read 0 {}", &cancel[..60]), "3");
    let buffer = "EE".repeat(292);
    check(
        &format!("read-into 0 {} {}", cancel, buffer),
        &format!("0 {}EE", record),
    );
    check(
        &format!("read-into 0 {} {}", cancel, &buffer[4..]),
        &format!("13 {}", &buffer[4..]),
    );
    check(&format!("read-into 1 {} EE", cancel), "4 EE");
    check(&format!("read-into 0 {} EE", &cancel[..60]), "3 EE");
    let buffer = "EE".repeat(32);
    let record = format!("{}{}", record, "07".repeat(148));
    check(
        &format!("write 0 {} {}", record, buffer),
        &format!("0 {}EE", cancel),
    );
    check(
        &format!("write 0 {}FF {}", record, buffer),
        &format!("0 {}EE", cancel),
    );
    check(
        &format!("write 0 {} {}", record, &buffer[..60]),
        &format!("13 {}", &buffer[..60]),
    );
    check(&format!("write 0 {} -", record), "13 -");
    check(&format!("write 1 {} 0102", record), "4 0102");
    check(&format!("write 9 {} 0102", record), "4 0102");
    let own = &record[..582];
    check(
        &format!("write 0 {} {}", own, buffer),
        &format!("0 {}EE", cancel),
    );
    check(&format!("write 0 {} 0102", &own[..580]), "13 0102");
    check("write 0 39 0102", "13 0102");
    check("write 1 39 0102", "4 0102");
    check("write 9 39 0102", "4 0102");
    check("write 9 - 0102", "13 0102");
    check("write 0 - -", "13 -");
}

/// Document 002's New Order, its record by the tables of README.md, and back.
#[test]
fn options_order() {
    let order = format!(
        "BABA5900380001000000414243313233{}310A0000000404C101177017000000000000\
         4D534654000000004352000000{}{}EFDB320198AB020000000000314F",
        "00".repeat(14),
        "44454647",
        "00".repeat(12)
    );
    assert_eq!(order.len(), 2 * 91);
    let record = format!(
        "B80001000000414243313233{}310A000000{}0404C10117{}{}7017000000000000{}\
         4D534654000000004352000000{}{}EFDB320198AB020000000000314F{}",
        "00".repeat(14),
        "00".repeat(65),
        "00".repeat(15),
        "00".repeat(8),
        "00".repeat(11),
        "44454647",
        "00".repeat(12),
        "00".repeat(105)
    );
    assert_eq!(record.len(), 2 * 291);
    check(&format!("read 2 {}", order), &format!("0 {}", record));
    check(&format!("read 0 {}", order), "8@39");
    check(&format!("read 1 {}", order), "4");
    check(&format!("read 3 {}", order), "4");
    let buffer = "EE".repeat(91);
    check(
        &format!("write 2 {} {}", record, buffer),
        &format!("0 {}", order),
    );
    check(&format!("write 2 {} EE", record), "13 EE");
    check(&format!("write 0 {} EE", record), "4 EE");
    check(&format!("write 1 {} EE", record), "4 EE");
    check("write 2 B8 EE", "13 EE");
    check("write 0 B8 EE", "4 EE");
    check("write 2 38 EE", "4 EE");
    check("write 0 38 EE", "13 EE");
    for (maturity, answer) in [
        ("95DB3201", "10@77"),
        ("00000000", "10@77"),
        ("A56F4001", "10@77"),
    ] {
        let bad = order.replace("EFDB3201", maturity);
        check(&format!("read 2 {}", bad), answer);
        let bad = record.replace("EFDB3201", maturity);
        check(&format!("write 2 {} EE", bad), &format!("{} EE", answer));
    }
    let leap = order.replace("EFDB3201", "65D73401");
    let answer = record.replace("EFDB3201", "65D73401");
    check(&format!("read 2 {}", leap), &format!("0 {}", answer));
}

/// A refusal that has a place is told with it: read into a buffer, written and appended too.
#[test]
fn refusals_with_a_place() {
    let cancel = format!("BABA1D003900640000002C4243313233{}00", "00".repeat(14));
    check(&format!("read 0 {}", cancel), "10@10");
    check(&format!("read 0 {}EE", cancel), "10@10");
    check(&format!("read-into 0 {} EE", cancel), "10@10 EE");
    check(&format!("read 1 {}", cancel), "4");
    let record = format!("3900640000002C4243313233{}", "00".repeat(279));
    check(&format!("write 0 {} EEEE", record), "10@10 EEEE");
    let mark = "00000000C30035010000000000000000";
    let id = "00".repeat(37);
    let message = format!("BABA2E00250101000000{}00", id);
    check(
        &format!("append 20250819 {} 2 {}", mark, message),
        &format!("0 10@18 16 {}FFFF", mark),
    );
    let short = "BABA0800250101000000";
    check(
        &format!("append 20250819 {} 0 {}", mark, short),
        &format!("0 6@10 16 {}", mark),
    );
    check(
        &format!("list {}{}", mark, message),
        "mark 20250819 0 0|18 18",
    );
    check(
        &format!("list {}{}", mark, short),
        "mark 20250819 0 0|18 10",
    );
    check(&format!("restart 20250819 {}{}", mark, short), "18");
    check(&format!("append 20250819 {}{} 0 -", mark, short), "18");
}

/// A session message that is its header alone, and one with text, pairs and groups.
#[test]
fn read_and_write_of_the_session() {
    let heartbeat = "BABA0800030000000000";
    let record = format!("03{}", "00".repeat(438));
    check(&format!("read 0 {}", heartbeat), &format!("0 {}", record));
    check(&format!("read 1 {}", heartbeat), "4");
    check(
        &format!("write 0 {} {}EE", record, "EE".repeat(10)),
        &format!("0 {}EE", heartbeat),
    );
    let buffer = "EE".repeat(10);
    let short = &record[..2 * 438];
    check(
        &format!("write 0 {} {}", short, buffer),
        &format!("13 {}", buffer),
    );
    check(&format!("write 1 {} -", short), "4 -");
    let body = format!("41{}0100000000012007000000010500800000", "00".repeat(60));
    let response = format!("BABA560024{}{}", "00".repeat(5), body);
    assert_eq!(response.len(), 2 * 88);
    let record = format!("24{}{}{}", "00".repeat(5), body, "00".repeat(433 - 78));
    assert_eq!(record.len(), 2 * 439);
    check(&format!("read 1 {}", response), &format!("0 {}", record));
    check(
        &format!("write 1 {} {}", record, "EE".repeat(88)),
        &format!("0 {}", response),
    );
    check(
        &format!("write 1 {} {}", record, "EE".repeat(87)),
        &format!("13 {}", "EE".repeat(87)),
    );
}

/// The acknowledgment in the book of document 01's listing, with a number.
fn message(number: u8) -> String {
    format!(
        "BABA37002501{:02X}000000{}414243313233{}00010444D6120000000000",
        number,
        "00".repeat(8),
        "00".repeat(22)
    )
}

/// The book of document 01's listing, and what is done with it.
#[test]
fn book_of_document_01() {
    let mark = "00000000C30035010000000000000000";
    check("open 20250819 -", "13 -");
    check("open 20250832 -", "19 -");
    check(
        &format!("open 20250819 {}EE", "AB".repeat(16)),
        &format!("0 {}EE", mark),
    );
    let table = format!("01{}", "00".repeat(127));
    let book = format!("{}{}", mark, message(1));
    check(
        &format!("restart 20250819 {}BA", book),
        &format!("0 73 0 1 {} 10{}", table, "00".repeat(127)),
    );
    check("restart 20250819 -", "22");
    check(&format!("restart 20250820 {}BA", book), "17");
    check(&format!("restart 20250819 {}AB", book), "18");
    check(&format!("restart 0 {}AB", book), "19");
    check(
        &format!("append 20250819 {}BA 57 {}AB", book, message(2)),
        &format!("0 0 130 {}{}FF", book, message(2)),
    );
    check(
        &format!("append 20250819 {}BA 55 {}AB", book, message(2)),
        &format!("0 13 73 {}BA{}", book, "FF".repeat(55)),
    );
    check(
        &format!("append 20250819 {} 0 {}", book, message(1)),
        &format!("0 14 73 {}", book),
    );
    check(&format!("append 20250820 {} 0 -", book), "17");
    check(
        &format!("close 20250819 {}BA 15", book),
        &format!("0 89 {}00000000C30035010100000049000000", book),
    );
    check(
        &format!("close 20250819 {}BA 14", book),
        &format!("0 73 {}BA{}", book, "FF".repeat(14)),
    );
    check(&format!("close 20250819 {}AB 16", book), "18");
    for line in [
        "open 20250819",
        "open 4294967296 -",
        "open - 20250819",
        "restart 20250819",
        "restart 20250819 - -",
        "restart 20250819 0",
        "append 20250819 - 0",
        "append 20250819 - 2101 -",
        "append 20250819 - - -",
        "close 20250819 -",
        "close 20250819 - 2101",
        "close 20250819 - -",
        "list",
        "list - -",
        "list 0",
        "list 20250819 -",
    ] {
        check(line, "?");
    }
    check("append 20250819 - 2100 -", "22");
    check("close 20250819 - 2100", "22");
    check("list -", "22");
    check(
        &format!("list {}BA", book),
        "mark 20250819 0 0|25 1 1 ABC123 123.4500|end 73 1",
    );
}

/// The last message of a unit, of the same book and of one with a mark and a message more.
#[test]
fn last_messages() {
    let mark =
        |count: u8, back: u8| format!("00000000C3003501{:02X}000000{:02X}000000", count, back);
    let book = format!("{}{}", mark(0, 0), message(1));
    let longer = format!("{}{}{}", book, mark(1, 73), message(2));
    assert_eq!(longer.len(), 2 * 146);
    let one = format!("0 0 16 {}", message(1));
    check(&format!("last 20250819 1 {}BA", book), &one);
    check(&format!("last 20250819 2 {}BA", book), "0 26 0 -");
    for unit in [0, 33, 255] {
        check(&format!("last 20250819 {} {}BA", unit, book), "0 5 0 -");
        check(&format!("last-state - {} {}", unit, book), "5 0 -");
        check(&format!("last-line {} {}AB", unit, book), "5");
    }
    let two = format!("0 0 89 {}", message(2));
    check(&format!("last 20250819 1 {}", longer), &two);
    check(&format!("last 20250819 1 {}", &longer[..290]), &one);
    check(&format!("last 20250819 1 {}", mark(0, 0)), "0 26 0 -");
    check("last 20250832 0 -", "19");
    check("last 20250819 0 -", "22");
    check(&format!("last 20250820 0 {}", book), "17");
    check(&format!("last 20250819 0 {}AB", book), "18");
    let state = |number: u8, length: &str, place: &str| {
        let (tables, rest) = ("00".repeat(124), "EE".repeat(8));
        format!(
            "{:02X}000000{}EEEEEEEE{}{}{}{}",
            number, tables, length, rest, place, tables
        )
    };
    let of_the_book = state(1, "49000000", "10000000");
    assert_eq!(of_the_book.len(), 2 * 272);
    let found = format!("0 16 {}", message(1));
    check(&format!("last-state {} 1 {}", of_the_book, book), &found);
    check(
        &format!("last-state {}EE 1 {}EE", of_the_book, book),
        &found,
    );
    check(&format!("last-state {} 2 {}", of_the_book, book), "26 0 -");
    let short = &of_the_book[..2 * 271];
    check(&format!("last-state {} 1 {}", short, book), "13 0 -");
    check(&format!("last-state {} 2 {}", short, book), "13 0 -");
    check(&format!("last-state {} 33 {}", short, book), "5 0 -");
    let cut = &book[..2 * 72];
    check(&format!("last-state {} 1 {}", of_the_book, cut), "18 0 -");
    for (number, length, place, expected) in [
        (1, "FFFFFFFF", "10000000", &found[..]),
        (1, "48000000", "10000000", "18 0 -"),
        (1, "00000000", "10000000", "18 0 -"),
        (2, "49000000", "10000000", "18 0 -"),
        (1, "49000000", "0F000000", "18 0 -"),
        (1, "49000000", "00000000", "18 0 -"),
        (1, "49000000", "49000000", "18 0 -"),
        (1, "49000000", "4A000000", "18 0 -"),
        (1, "FFFFFFFF", "FFFFFFFF", "18 0 -"),
        (0, "49000000", "10000000", "26 0 -"),
        (0, "49000000", "FFFFFFFF", "26 0 -"),
    ] {
        let state = state(number, length, place);
        check(&format!("last-state {} 1 {}", state, book), expected);
    }
    let line = "25 1 1 ABC123 123.4500|at 16 57";
    check(&format!("last-line 1 {}BA", book), line);
    check(&format!("last-line 2 {}BA", book), "26");
    check(
        &format!("last-line 1 {}", longer),
        "25 1 2 ABC123 123.4500|at 89 57",
    );
    check("last-line 1 -", "22");
    check(&format!("last-line 1 {}AB", book), "18");
    check(&format!("last-line 2 {}AB", book), "18");
    let bad = longer.replace("010444D612", "100444D612");
    check(&format!("last-line 1 {}", bad), "18 47");
    for line in [
        "last 20250819 1",
        "last 20250819 256 -",
        "last 20250819 - 1",
        "last 4294967296 1 -",
        "last 20250819 1 0",
        "last-state - 1",
        "last-state - 256 -",
        "last-state 0 1 -",
        "last-state - 1 0",
        "last-line 1",
        "last-line 256 -",
        "last-line - 1",
        "last-line 1 - -",
        "last-lines 1 -",
    ] {
        check(line, "?");
    }
}

#[test]
fn years() {
    let count = |question: &str| {
        let text = answer(question.as_bytes());
        assert_eq!(text.len(), 462);
        text.bytes().filter(|character| *character == b'1').count()
    };
    assert_eq!(count("year 2023"), 365);
    assert_eq!(count("year 2024"), 366);
    assert_eq!(count("year 2000"), 366);
    for year in ["year 0", "year 1969", "year 2100", "year 9999"] {
        assert_eq!(count(year), 0);
    }
    let leap = answer(b"year 2024");
    assert_eq!(&leap[2 * 33..3 * 33], format!("0{}000", "1".repeat(29)));
}

#[test]
fn leading_zeros_are_digits() {
    check("day 00000000000020240229", "0");
    check("day 000000000000020240229", "?");
}

#[test]
fn outside_the_format() {
    for line in [
        "",
        " ",
        "frames -",
        "Frame -",
        "frame",
        "frame ",
        "frame - ",
        " frame -",
        "frame  -",
        "frame - -",
        "frame\t-",
        "frame -\r",
        "frame ba",
        "frame BAB",
        "get 3 00 0",
        "get 2 00 18446744073709551616",
        "put 2 0000 0 65536",
        "put 4 00000000 0 4294967296",
        "put 8 - 0 18446744073709551616",
        "price 00000000000000",
        "price 000000000000000000",
        "kind C 41",
        "kind a 41",
        "step - 256 0",
        "step - 1 4294967296",
        "day -1",
        "day +1",
        "day 4294967296",
        "year 10000",
        "due 1",
        "silent 1 2 3",
        "read 0",
        "read -",
        "read 0 - -",
        "read 256 -",
        "read A -",
        "read 0 ba",
        "read-into 0 -",
        "read-into 0 - - -",
        "write 0 -",
        "write 0 - - -",
        "write 256 - -",
        "write 0 - 3",
        "write 0 3 -",
        "told",
        "told 256",
        "told -",
        "told 38 38",
        "told 0x26",
        "day é",
    ] {
        check(line, "?");
    }
    assert_eq!(answer(b"frame \xFF"), "?");
    assert_eq!(answer(b"frame -\0"), "?");
}

#[test]
fn longest_line() {
    let line = |zeros: usize| format!("get 2 {} 10", "00".repeat(zeros));
    assert_eq!(line(3_995).len(), 7_999);
    check(&line(3_995), "0");
    assert_eq!(line(3_996).len(), 8_001);
    check(&line(3_996), "?");
    let even = format!("frame {}", "00".repeat(3_997));
    assert_eq!(even.len(), LONGEST);
    check(&even, "1");
}

#[test]
fn one_answer_a_line_and_none_for_the_rest() {
    assert_eq!(answers(b""), "");
    assert_eq!(answers(b"day 0"), "");
    assert_eq!(answers(b"\n"), "?\n");
    assert_eq!(answers(b"day 20240229\n\nframe -\nday 0"), "0\n?\n3\n");
}
