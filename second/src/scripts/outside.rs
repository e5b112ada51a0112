//! Lines outside the format among the steps of a day: they are answered `?` and change nothing.

use super::driver::{Driver, LoginLine};
use crate::bench::BUFFER;
use crate::examples;
use crate::hex;
use crate::questions::bitfields::sample::{Sample, CANCEL};
use crate::questions::parts::Parts;

/// All of them, in pieces that steps can come between.
pub fn lines(driver: &mut Driver) -> Vec<String> {
    let mut lines: Vec<String> = FIXED.iter().map(|line| line.to_string()).collect();
    let table = "00".repeat(128);
    let (less, more) = (&table[2..], format!("{}00", table));
    for bad in [less, &more, "-", &table[1..]] {
        for tables in [[bad, &table], [&table, bad]] {
            lines.push(format!("m-state 0 0 0 0 0 0 0 {}", tables.join(" ")));
        }
        for place in 0..3 {
            let mut tables = [&table[..]; 3];
            tables[place] = bad;
            lines.push(format!("v-state 0 0 0 0 0 0 {}", tables.join(" ")));
        }
    }
    // A table too few or too many.
    for count in [1, 3] {
        let tables = vec![&table[..]; count].join(" ");
        lines.push(format!("m-state 0 0 0 0 0 0 0 {}", tables));
    }
    for count in [2, 4] {
        let tables = vec![&table[..]; count].join(" ");
        lines.push(format!("v-state 0 0 0 0 0 0 {}", tables));
    }
    for numbers in OF_MEMBER {
        lines.push(format!("m-state {} {} {}", numbers, table, table));
    }
    for numbers in OF_VENUE {
        let tables = [&table[..]; 3].join(" ");
        lines.push(format!("v-state {} {}", numbers, tables));
    }
    lines.extend(logins(driver));
    let cancel = Sample::least(&mut driver.random, CANCEL).record();
    let (record, bytes) = (hex::write(&cancel), hex::write(&examples::login()));
    for line in [
        format!("m-order {} 2101", record),
        format!("m-order {}", record),
        format!("m-order {}0 40", record),
        format!("m-get {} {}", bytes, BUFFER + 1),
        format!("m-get {}", bytes),
        format!("m-get {} 100 100", bytes),
        format!("m-message {}", bytes),
        format!("m-message {} {}", bytes, BUFFER + 1),
        format!("m-response {}", bytes),
        format!("m-response {} {}", bytes, BUFFER + 1),
        format!("v-log {} {}", bytes, BUFFER + 1),
        format!("v-login {} 601", bytes),
        format!("v-login {}", bytes),
        format!("v-order {}", bytes),
        format!("v-order {} 0", bytes),
        format!("v-order 2 {}", bytes),
        format!("v-order - {}", bytes),
        format!("v-order 0 {} 10", bytes),
        format!("v-order 0 {}0", bytes),
    ] {
        lines.push(line);
    }
    lines
}

/// Numbers that are outside the format in the state of a side, each past its greatest value; and one too few
/// or too many.
const OF_MEMBER: [&str; 13] = [
    "4 0 0 0 0 0 0",
    "255 0 0 0 0 0 0",
    "- 0 0 0 0 0 0",
    "0 4294967296 0 0 0 0 0",
    "0 0 2 0 0 0 0",
    "0 0 255 0 0 0 0",
    "0 0 - 0 0 0 0",
    "0 0 0 4294967296 0 0 0",
    "0 0 0 0 4294967296 0 0",
    "0 0 0 0 0 4294967296 0",
    "0 0 0 0 0 0 4294967296",
    "0 0 0 0 0 0",
    "0 0 0 0 0 0 0 0",
];
const OF_VENUE: [&str; 8] = [
    "2 0 0 0 0 0",
    "0 2 0 0 0 0",
    "0 0 4294967296 0 0 0",
    "0 0 0 4294967296 0 0",
    "0 0 0 0 4294967296 0",
    "0 0 0 0 0 4294967296",
    "0 0 0 0 0",
    "0 0 0 0 0 0 0",
];

/// `m-login` with one word that is not in the format.
fn logins(driver: &mut Driver) -> Vec<String> {
    let good = LoginLine::good(&mut driver.random, true, &[1]).line(250);
    let words: Vec<&str> = good.split(' ').collect();
    let mut lines = vec![format!("{} 0", good), words[..12].join(" ")];
    for (index, bad) in [
        (1, "256"),
        (1, "-"),
        (2, "256"),
        (3, "256"),
        (4, &words[4][2..]),
        (4, "-"),
        (5, &words[5][2..]),
        (5, "-"),
        (6, "2"),
        (7, "256"),
        (8, &words[8][2..]),
        (9, "2"),
        (10, "256"),
        (11, "-"),
        (12, "601"),
    ] {
        let mut words = words.clone();
        words[index] = bad;
        lines.push(words.join(" "));
    }
    lines
}

const FIXED: &[&str] = &[
    "",
    "New",
    "new ",
    " new",
    "new 0",
    "news",
    "m-",
    "v-",
    "m",
    "v",
    "m-close",
    "v-open 20250819 100 0",
    "v-restart 20250819 100 0",
    "v-beat 10",
    "m-step 100 100",
    "M-OPEN 20250819 100 0",
    "m-open",
    "m-open 20250819",
    "m-open 20250819 100",
    "m-open 20250819 16385 0",
    "m-open 20250819 100 2",
    "m-open 20250819 100 100",
    "m-open 20250819 100 -",
    "m-open 20250819 100 0 0",
    "m-open 4294967296 100 0",
    "m-open -1 100 0",
    "m-open  20250819 100 0",
    "m-open 20250819 100 0 ",
    "m-open 20250819 000000000000000000100 0",
    "m-open 20250819 100 000000000000000000001",
    "m-restart",
    "m-restart 20250819",
    "m-restart 20250819 16",
    "m-restart 20250819 16385 0",
    "m-restart 20250819 16 2",
    "m-restart 20250819 16 255",
    "m-restart 20250819 16 -",
    "m-restart 20250819 16 1 1",
    "m-restart 4294967296 16 0",
    "m-restart 20250819 - 0",
    "m-get",
    "m-get -",
    "m-get - -",
    "m-get 0 100",
    "m-get ba 100",
    "m-get 100 -",
    "m-message",
    "m-message -",
    "m-message - -",
    "m-message BAB 100",
    "m-message - 100 100",
    "m-messages - 100",
    "m-response",
    "m-response -",
    "m-response ba 100",
    "m-response - 100 ",
    "m-response 100 - 100",
    "m-respond - 100",
    "m-order",
    "m-order - 2101",
    "m-order - -1",
    "m-beat",
    "m-beat -",
    "m-beat 16385",
    "m-beat 10 10",
    "m-break",
    "m-break 16385",
    "m-break -",
    "m-book ",
    "m-book 0",
    "m-last",
    "m-last 1",
    "m-last 1 16385",
    "m-last 256 100",
    "m-last 4294967297 100",
    "m-last -1 100",
    "m-last - 100",
    "m-last 1 -",
    "m-last 1 100 100",
    "m-last  1 100",
    "m-last 1 100 ",
    "m-last 000000000000000000001 100",
    "m-Last 1 100",
    "m-lasts 1 100",
    "v-last 1 100",
    "m-login",
    "m-login 0 0 0 - - 0 0 - 0 0 - 250",
    "v-log",
    "v-log -",
    "v-log - 16385",
    "v-login - 601",
    "v-login -",
    "v-step",
    "v-step 100",
    "v-step 100 2101",
    "v-step 16385 100",
    "v-step - 100",
    "v-step 100 100 100",
    "v-order",
    "v-order 0",
    "v-order -",
    "v-order 0 0",
    "v-order 2 -",
    "v-order 256 -",
    "v-order -1 -",
    "v-order - -",
    "v-break 0",
    "v-break ",
    "v-book -",
    "v-state",
    "m-state 0 0 0 0 0 0 0",
];
