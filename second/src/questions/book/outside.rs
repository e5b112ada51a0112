//! Lines outside the format, some just inside it, and the longest ones.

use super::{append, close, restart};
use crate::examples;
use crate::hex;
use crate::questions::made::{example, Made, DATE};

pub fn ask(lines: &mut Vec<String>) {
    outside(lines);
    longest(lines);
}

fn outside(lines: &mut Vec<String>) {
    for line in [
        "open",
        "open 20250819",
        "open -",
        "open 20250819 - -",
        "open  20250819 -",
        "open 20250819 - ",
        "Open 20250819 -",
        "open 4294967296 -",
        "open -1 -",
        "open 20250819 0",
        "open 20250819 0a",
        "restart",
        "restart 20250819",
        "restart - 20250819",
        "restart 20250819 - -",
        "restart 20250819 -  ",
        "restart 4294967296 -",
        "restart 000000000000020250819 -",
        "restart 20250819 BAB",
        "restarts 20250819 -",
        "append",
        "append 20250819 -",
        "append 20250819 - 0",
        "append 20250819 - -",
        "append 20250819 - - -",
        "append 20250819 - 0 - -",
        "append 20250819 - 2101 -",
        "append 20250819 - 4294967296 -",
        "append 20250819 - 18446744073709551616 -",
        "append 20250819 - -1 -",
        "append 4294967296 - 0 -",
        "append 20250819 0 0 -",
        "append 20250819 - 0 B",
        "append 20250819 - 0 ba",
        "close",
        "close 20250819 -",
        "close 20250819 - -",
        "close 20250819 0 -",
        "close 20250819 - 0 0",
        "close 20250819 - 2101",
        "close 4294967296 - 0",
        "close 20250819 - 0 ",
        "close 20250819 00 2100",
        "close 00000000000020250819 - 00000000000000002100",
        "append 4294967295 - 2100 -",
        "append 00000000000020250819 - 0002100 -",
        "restart 00000000000020250819 -",
        "open 00000000000020250819 -",
    ] {
        lines.push(line.to_string());
    }
    let book = hex::write(&example());
    lines.push(format!("close 20250819 {} 2101", book));
    lines.push(format!("append 20250819 {} 2101 -", book));
}

/// Marks and a torn one after them, in lines as long as they may be, and longer.
fn longest(lines: &mut Vec<String>) {
    let long = |count: usize, torn: usize| {
        let mut book = Made::new(DATE);
        for _ in 1..count {
            book = book.mark();
        }
        [book.bytes, vec![0; torn]].concat()
    };
    let message = examples::booked_acknowledgment();
    lines.push(restart(DATE, &long(249, 7)));
    lines.push(restart(DATE, &long(249, 8)));
    lines.push(append(DATE, &long(245, 12), 2_100, &message));
    lines.push(append(DATE, &long(245, 13), 2_100, &message));
    lines.push(close(DATE, &long(249, 6), 2_100));
    lines.push(close(DATE, &long(249, 7), 2_100));
}
