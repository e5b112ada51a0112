use super::*;
use crate::ask;
use crate::examples;

/// Questions on one bench, each with its answer.
fn check(script: &[(&str, &str)]) {
    let mut bench = Bench::new();
    for (question, expected) in script {
        let answer = ask::answer_on(&mut bench, question.as_bytes());
        assert_eq!(answer, *expected, "{}", question);
    }
}

const MARK: &str = "00000000C30035010000000000000000";

fn zeros(count: usize) -> String {
    "00".repeat(count)
}

fn login(choice: &str, room: usize) -> String {
    let (units, names) = (zeros(32), "303030315445535454455354494E47000000");
    let none = format!("0 0 {}", zeros(15));
    format!(
        "m-login {} {} {} {} {} {}",
        choice, units, names, none, none, room
    )
}

/// A day of one message: opening, login, replay, an order, a break, and restart on a cut.
#[test]
fn small_day() {
    let message = hex::write(&examples::booked_acknowledgment());
    let rejected = hex::write(&examples::order_rejected());
    let request = format!(
        "BABA1B003700000000003030303154455354{}",
        "54455354494E4700000000"
    );
    let mut pairs = String::new();
    for unit in 1..=32 {
        let number = if unit == 1 { "01" } else { "00" };
        pairs.push_str(&format!("{:02X}{}000000", unit, number));
    }
    let text = format!("4163636570746564{}", zeros(52));
    let body = format!("41{}000000000020{}00", text, pairs);
    let response = format!("BABAEC0024{}{}", zeros(5), body);
    let record =
        hex::write(&crate::rules::read::message(0, &examples::cancel_without_bitfields()).unwrap());
    let order = hex::write(&examples::cancel_without_bitfields()).replace("64000000", "01000000");
    let table = format!("01{}", zeros(127));
    check(&[
        ("m-book", &format!("- {} {}", zeros(128), zeros(128))),
        ("v-book", &format!("- {} {}", zeros(128), zeros(128))),
        ("m-open 20250819 200 0", "0 0 0 0 20250819 16 0 0 0 0"),
        (&format!("v-log {} 100", message), "0 0 0 0 0 57 0 0 1 0"),
        (
            &login("2 0 0", 30),
            &format!("0 1 0 0 20250819 16 0 0 0 0 {}FF", request),
        ),
        (
            &format!("v-login {} 239", request),
            &format!("0 1 0 0 57 57 0 0 1 0 {}FF", response),
        ),
        (
            &format!("m-get {} 200", response),
            "0 0 2 0 0 20250819 16 0 0 0 0",
        ),
        (
            "v-step 56 58",
            &format!("0 1 0 0 57 57 0 0 1 0 {}", "FF".repeat(58)),
        ),
        (
            "v-step 57 58",
            &format!("0 1 0 57 57 57 0 0 1 0 {}FF", message),
        ),
        (
            &format!("m-get {} 200", rejected),
            "0 2 2 0 0 20250819 16 0 0 0 0",
        ),
        (
            &format!("m-get {} 200", message),
            "0 1 2 0 0 20250819 73 0 1 1 16",
        ),
        (
            &format!("m-get {} 200", message),
            "14 0 2 0 0 20250819 73 0 1 1 16",
        ),
        (
            "v-step 57 10",
            "0 1 1 57 57 57 0 0 1 0 BABA0800130000000000",
        ),
        (
            "v-step 57 10",
            &format!("0 1 1 57 57 57 0 0 1 0 {}", "FF".repeat(10)),
        ),
        (
            "m-get BABA0800130000000000 0",
            "0 0 3 0 0 20250819 73 0 1 1 16",
        ),
        (
            &format!("m-get {} 0", rejected),
            "0 2 3 0 0 20250819 73 0 1 1 16",
        ),
        (
            &format!("m-message {} 200", rejected),
            "4 3 0 0 20250819 73 0 1 1 16",
        ),
        (&format!("v-log {} 200", rejected), "4 1 1 57 57 57 0 0 1 0"),
        (
            &format!("m-order {} 31", record),
            &format!("0 3 1 0 20250819 73 0 1 1 16 {}", order),
        ),
        (&format!("v-order 0 {}", order), "0 1 1 57 57 57 1 0 1 0"),
        (&format!("v-order 0 {}", order), "21 1 1 57 57 57 1 0 1 0"),
        (
            "m-beat 10",
            "0 3 1 0 20250819 73 0 1 1 16 BABA0800030000000000",
        ),
        ("v-order 0 BABA0800030000000000", "0 1 1 57 57 57 1 0 1 0"),
        ("m-break 88", "0 1 0 20250819 73 0 1 1 16"),
        ("v-break", "0 0 0 0 57 1 0 1 0"),
        ("m-beat 0", "16 0 1 0 20250819 73 0 1 1 16 -"),
        (
            "m-book",
            &format!("{}{} {} 10{}", MARK, message, table, zeros(127)),
        ),
        ("v-book", &format!("{} {} {}", message, table, zeros(128))),
        ("m-last 1 73", &format!("0 16 {}", message)),
        ("m-last 1 72", "18 0 -"),
        ("m-restart 20250819 72 0", "0 0 0 0 20250819 16 0 0 0 0"),
        ("m-restart 20250819 73 0", "0 0 0 0 20250819 73 0 1 1 16"),
        ("m-restart 20250819 74 0", "18 0 0 0 20250819 73 0 1 1 16"),
        ("new", "0"),
        ("m-restart 20250819 16 0", "18 0 0 0 0 0 0 0 0 0"),
    ]);
}

/// Each call that reads or writes a message tells the place of what it refuses.
#[test]
fn places() {
    let mut message = examples::booked_acknowledgment();
    message[18] = b',';
    let message = hex::write(&message);
    let mut response = examples::login_response_of_the_notes();
    response[11] = 7;
    let response = hex::write(&response);
    let mut request = examples::options_login();
    request[14] = b'-';
    let request = hex::write(&request);
    let mut order = examples::new_order();
    let mut record = crate::rules::read::message(0, &order).unwrap();
    order[37] = 0xC9;
    record[143] = b'-';
    let zeros = zeros(128);
    let state = "7 0 0 16 0 0";
    check(&[
        (&format!("v-log {} 100", message), "10@18 0 0 0 0 0 0 0 0 0"),
        (
            &format!("v-login {} 0", request),
            "10@14 0 0 0 0 0 0 0 0 0 -",
        ),
        (
            &format!("v-state 1 0 0 0 0 0 {} {} {}", zeros, zeros, zeros),
            "1 0 0 0 0 0 0 0 0",
        ),
        (
            &format!("v-order 0 {}", hex::write(&order)),
            "8@37 1 0 0 0 0 0 0 0 0",
        ),
        ("v-order 0 BABA090003000000000000", "6@11 1 0 0 0 0 0 0 0 0"),
        (
            &login("1 2 0", 0).replace(" 3030303154", " 303030312D"),
            "10@14 0 0 0 0 0 0 0 0 0 -",
        ),
        (
            &format!("m-state 3 {} {} {}", state, zeros, zeros),
            "3 7 0 0 16 0 0 0 0",
        ),
        (
            &format!("m-get {} 100", message),
            "10@18 0 3 7 0 0 16 0 0 0 0",
        ),
        (
            &format!("m-message {} 100", message),
            "10@18 3 7 0 0 16 0 0 0 0",
        ),
        (
            &format!("m-response {} 100", response),
            "10@11 3 7 0 0 16 0 0 0 0",
        ),
        (
            &format!("m-order {} 2", hex::write(&record)),
            "10@47 3 7 0 0 16 0 0 0 0 FFFF",
        ),
    ]);
}

/// States of any numbers; the sums pass 32 bits. What is not in the format changes nothing.
#[test]
fn states() {
    let full = "FF".repeat(128);
    let ones = "01000000".repeat(32);
    let state = |phase: &str, table: &str, places: &str| {
        format!(
            "m-state {} 4294967295 1 1 2 3 4 {} {}",
            phase, table, places
        )
    };
    let venue = |start: &str, thresholds: &str, table: &str, places: &str| {
        format!(
            "v-state {} 5 6 7 {} {} {}",
            start, thresholds, table, places
        )
    };
    let sum = "137438953440";
    check(&[
        (
            &state("3", &full, &ones),
            &format!("3 4294967295 1 1 2 3 4 {} 32", sum),
        ),
        (&state("4", &full, &full), "?"),
        (&state("0", &full[2..], &full), "?"),
        (&state("0", "-", &full), "?"),
        (&state("0", &full, &full[2..]), "?"),
        (&state("0", &full, "-"), "?"),
        (&format!("m-state 0 0 1 1 2 3 4 {}", full), "?"),
        ("m-break 100", &format!("0 4294967295 1 1 2 3 4 {} 32", sum)),
        (
            &state("1", &ones, &full),
            &format!("1 4294967295 1 1 2 3 4 32 {}", sum),
        ),
        (
            &venue("1 1 4294967295", &full, &zeros(128), &ones),
            &format!("1 1 4294967295 5 6 7 {} 0 32", sum),
        ),
        (&venue("2 1 1", &full, &full, &full), "?"),
        (&venue("1 2 1", &full, &full, &full), "?"),
        (&venue("1 1 1", &full, &format!("{}00", full), &full), "?"),
        (&venue("1 1 1", &full, &full, &format!("{}00", full)), "?"),
        (&format!("v-state 1 1 1 5 6 7 {} {}", full, full), "?"),
        ("v-break", "0 0 0 0 6 7 0 0 32"),
    ]);
}

/// The last messages of a day: of units with messages and without, with room and without, in each
/// phase, and after a restart on a cut; they change nothing.
#[test]
fn last_messages() {
    let message = |unit: u8, number: u8| {
        let mut message = examples::booked_acknowledgment();
        message[5] = unit;
        message[6] = number;
        hex::write(&message)
    };
    let (first, second, other) = (message(1, 1), message(1, 2), message(32, 1));
    let state = |phase: u8| {
        format!(
            "m-state {} 0 0 20250819 16 0 0 {} {}",
            phase,
            zeros(128),
            zeros(128)
        )
    };
    check(&[
        ("m-last 1 16384", "26 0 -"),
        ("m-last 0 0", "5 0 -"),
        ("m-last 33 16384", "5 0 -"),
        ("m-last 255 16384", "5 0 -"),
        ("m-open 20250819 16 0", "0 0 0 0 20250819 16 0 0 0 0"),
        (&state(2), "2 0 0 20250819 16 0 0 0 0"),
        (
            &format!("m-message {} 72", first),
            "13 2 0 0 20250819 16 0 0 0 0",
        ),
        ("m-last 1 100", "26 0 -"),
        (
            &format!("m-message {} 73", first),
            "0 2 0 0 20250819 73 0 1 1 16",
        ),
        (
            &format!("m-message {} 200", first),
            "14 2 0 0 20250819 73 0 1 1 16",
        ),
        ("m-last 1 73", &format!("0 16 {}", first)),
        ("m-last 32 73", "26 0 -"),
        (
            &format!("m-get {} 200", other),
            "0 1 2 0 0 20250819 130 0 2 2 89",
        ),
        ("m-break 200", "0 0 0 20250819 146 130 2 2 89"),
        ("m-last 32 146", &format!("0 73 {}", other)),
        ("m-last 32 130", &format!("0 73 {}", other)),
        ("m-last 32 129", "18 0 -"),
        ("m-last 1 129", &format!("0 16 {}", first)),
        (
            "m-restart 20250819 146 0",
            "0 0 0 0 20250819 146 130 2 2 89",
        ),
        (
            &format!(
                "m-state 3 0 0 20250819 146 130 2 01{}01000000 10{}49000000",
                zeros(123),
                zeros(123)
            ),
            "3 0 0 20250819 146 130 2 2 89",
        ),
        (
            &format!("m-get {} 203", second),
            "0 1 3 0 0 20250819 203 130 3 3 219",
        ),
        ("m-last 1 203", &format!("0 146 {}", second)),
        (
            "m-restart 20250819 202 0",
            "0 0 0 0 20250819 146 130 2 2 89",
        ),
        ("m-last 1 203", &format!("0 16 {}", first)),
        (&state(1), "1 0 0 20250819 16 0 0 0 0"),
        ("m-last 1 203", "26 0 -"),
        (
            &format!(
                "m-state 0 0 0 0 73 0 0 01{} FFFFFFFF{}",
                zeros(127),
                zeros(124)
            ),
            "0 0 0 0 73 0 0 1 4294967295",
        ),
        ("m-last 1 16384", "18 0 -"),
        (
            &format!("m-state 0 0 0 0 72 0 0 01{} 10{}", zeros(127), zeros(127)),
            "0 0 0 0 72 0 0 1 16",
        ),
        ("m-last 1 16384", "18 0 -"),
    ]);
}

/// The places of a log count from its first byte; what is refused moves none.
#[test]
fn places_of_the_log() {
    let message = |unit: u8, number: u8| {
        let mut message = examples::booked_acknowledgment();
        message[5] = unit;
        message[6] = number;
        hex::write(&message)
    };
    let log =
        |unit: u8, number: u8, room: usize| format!("v-log {} {}", message(unit, number), room);
    check(&[
        (&log(2, 1, 57), "0 0 0 0 0 57 0 0 1 0"),
        (&log(2, 2, 113), "13 0 0 0 0 57 0 0 1 0"),
        (&log(2, 3, 114), "15 0 0 0 0 57 0 0 1 0"),
        (&log(3, 1, 114), "0 0 0 0 0 114 0 0 2 57"),
        (&log(2, 2, 171), "0 0 0 0 0 171 0 0 3 171"),
        (
            "v-book",
            &format!(
                "{}{}{} {}0200000001000000{} {}7200000039000000{}",
                message(2, 1),
                message(3, 1),
                message(2, 2),
                zeros(4),
                zeros(116),
                zeros(4),
                zeros(116)
            ),
        ),
        ("v-break", "0 0 0 0 171 0 0 3 171"),
    ]);
}

/// Counts, and what of a login plays a part.
#[test]
fn logins() {
    let refused = |choice: &str, number: &str| {
        let answer = ask::answer(login(choice, 0).as_bytes());
        assert_eq!(
            answer,
            format!("{} 0 0 0 0 0 0 0 0 0 -", number),
            "{}",
            choice
        );
    };
    refused("0 2 255", "13");
    refused("2 2 255", "13");
    refused("255 0 0", "13");
    refused("1 0 0", "13");
    refused("1 2 0", "11");
    refused("1 0 33", "11");
    refused("1 0 1", "11");
    assert_eq!(ask::answer(login("1 256 0", 0).as_bytes()), "?");
    assert_eq!(ask::answer(login("256 0 0", 0).as_bytes()), "?");
    assert_eq!(ask::answer(login("0 0 0", 601).as_bytes()), "?");
}

/// Given no choice the units that have a number are listed, with flag 0; the full list is asked for by its
/// units. What is refused writes nothing. The venue takes both, and is the same after them.
#[test]
fn both_forms_of_a_login() {
    let names = "303030315445535454455354494E47000000";
    let start = |length: &str| format!("BABA{}00370000000000{}01", length, names);
    let units: Vec<u8> = (1..=UNITS).collect();
    let by_units = |room: usize| login("1 1 32", room).replacen(&zeros(32), &hex::write(&units), 1);
    let empty = format!("{}0500800000", start("20"));
    let pairs = "014ABB01000205000000";
    let short = format!("{}0F00800002{}", start("2A"), pairs);
    let mut full = format!("{}A500800120{}", start("C0"), pairs);
    for unit in &units[2..] {
        full.push_str(&format!("{:02X}{}", unit, zeros(4)));
    }
    assert_eq!(full.len(), 2 * 194);
    let table = format!("4ABB010005000000{}", zeros(120));
    let state = format!("m-state 0 0 0 0 0 0 0 {} {}", table, zeros(128));
    let asked = "0 1 0 0 0 0 0 0 113487 0";
    check(&[
        (
            &login("0 1 32", 33),
            &format!("13 0 0 0 0 0 0 0 0 0 {}", "FF".repeat(33)),
        ),
        (
            &login("0 1 32", 34),
            &format!("0 1 0 0 0 0 0 0 0 0 {}", empty),
        ),
        (&state, "0 0 0 0 0 0 0 113487 0"),
        (
            &login("0 1 0", 43),
            &format!("13 0 0 0 0 0 0 0 113487 0 {}", "FF".repeat(43)),
        ),
        (&login("0 1 0", 45), &format!("{} {}FF", asked, short)),
        (&state, "0 0 0 0 0 0 0 113487 0"),
        (
            &by_units(193),
            &format!("13 0 0 0 0 0 0 0 113487 0 {}", "FF".repeat(193)),
        ),
        (&by_units(195), &format!("{} {}FF", asked, full)),
    ]);
    for request in [short, full] {
        let mut bench = Bench::new();
        let line = format!("v-login {} 600", request);
        let answer = ask::answer_on(&mut bench, line.as_bytes());
        assert!(answer.starts_with("0 1 0 0 0 0 0 113487 0 0 BABA"));
        assert_eq!(hex::write(&bench.venue.thresholds), table);
    }
}

#[test]
fn outside_the_format() {
    for line in [
        "new ",
        "new 0",
        "m-open 20250819 0",
        "m-open 20250819 16385 0",
        "m-open 20250819 16 2",
        "m-open 20250819 16 0 0",
        "m-restart 4294967296 0 0",
        "m-restart 0 16385 0",
        "m-restart 0 16",
        "m-restart 0 16 2",
        "m-get - 16385",
        "m-get -",
        "m-message - 16385",
        "m-message -",
        "m-response - 16385",
        "m-response - 0 0",
        "m-order - 2101",
        "m-beat",
        "m-beat 16385",
        "m-break",
        "m-break 16385",
        "m-book 0",
        "m-last",
        "m-last 1",
        "m-last 1 16385",
        "m-last 256 0",
        "m-last - 0",
        "m-last 1 0 0",
        "m-last 1 -",
        "v-last 1 0",
        "m-",
        "v-log - 16385",
        "v-login - 601",
        "v-step 0",
        "v-step 16385 0",
        "v-step 0 2101",
        "v-order",
        "v-order -",
        "v-order 2 -",
        "v-order - 0",
        "v-break 0",
        "v-book -",
        "v-open 20250819 16",
    ] {
        check(&[(line, "?")]);
    }
}

/// A session keeps the market that its opening or its restart names; what is refused leaves it. Each market's
/// session takes its own New Order.
#[test]
fn markets() {
    let order = hex::write(&examples::options_order());
    let record = hex::write(&crate::rules::read::message(2, &examples::options_order()).unwrap());
    let common = hex::write(&crate::rules::read::message(2, &examples::new_order()).unwrap());
    let of_equities = hex::write(&crate::rules::read::message(0, &examples::new_order()).unwrap());
    let sent = order.replace("380001", "380002");
    let zeros = zeros(128);
    check(&[
        ("m-open 20250819 16 1", "0 0 0 1 20250819 16 0 0 0 0"),
        ("m-open 20250819 15 0", "13 0 0 1 20250819 16 0 0 0 0"),
        ("m-restart 20250820 16 0", "17 0 0 1 20250819 16 0 0 0 0"),
        ("m-restart 20250819 16 0", "0 0 0 0 20250819 16 0 0 0 0"),
        ("m-open 20250832 16 1", "19 0 0 0 20250819 16 0 0 0 0"),
        (
            &format!("m-state 3 1 1 0 16 0 0 {} {}", zeros, zeros),
            "3 1 1 0 16 0 0 0 0",
        ),
        (
            &format!("m-order {} 91", record),
            &format!("0 3 2 1 0 16 0 0 0 0 {}", sent),
        ),
        (
            &format!("m-order {} 0", of_equities),
            "4 3 2 1 0 16 0 0 0 0 -",
        ),
        (&format!("m-order {} 0", common), "13 3 2 1 0 16 0 0 0 0 -"),
        ("m-break 100", "0 2 1 0 32 16 0 0 0"),
        (
            &format!("m-state 3 1 0 0 16 0 0 {} {}", zeros, zeros),
            "3 1 0 0 16 0 0 0 0",
        ),
        (&format!("m-order {} 0", record), "4 3 1 0 0 16 0 0 0 0 -"),
        (&format!("m-order {} 0", common), "4 3 1 0 0 16 0 0 0 0 -"),
        (
            &format!("m-order {} 0", of_equities),
            "13 3 1 0 0 16 0 0 0 0 -",
        ),
        (
            &format!("v-state 1 0 0 0 0 0 {} {} {}", zeros, zeros, zeros),
            "1 0 0 0 0 0 0 0 0",
        ),
        (&format!("v-order 0 {}", sent), "8@39 1 0 0 0 0 0 0 0 0"),
        (&format!("v-order 1 {}", sent), "0 1 0 0 0 0 2 0 0 0"),
        ("v-order 1 BABA0800030000000000", "0 1 0 0 0 0 2 0 0 0"),
        ("new", "0"),
        ("m-break 0", "0 0 0 0 0 0 0 0 0"),
    ]);
}
