//! Appending, and the mark at a session's end.

use super::faults::bad_messages;
use super::{append, close};
use crate::examples;
use crate::hex;
use crate::questions::bitfields::sample::{Sample, ACKNOWLEDGMENT, EXECUTION};
use crate::questions::made::{
    both, empty, example, greatest, mark, marks, numbered, some_type, units, Made, DATE, MARK,
};
use crate::random::Random;

pub fn ask(lines: &mut Vec<String>, random: &mut Random) {
    appends(lines, random);
    refused_appends(lines, random);
    appends_after_cuts(lines, random);
    on_refused_books(lines);
    closes(lines, random);
}

/// Good messages of several units, with room and without; bytes after them play no part.
fn appends(lines: &mut Vec<String>, random: &mut Random) {
    for book in [empty(), marks(), both(random), units(random)] {
        for unit in [1, 2, 32] {
            let which = some_type(random);
            let message = numbered(Sample::least(random, which), unit, book.next(unit));
            let size = message.len();
            for room in [size, size - 1, size + 1, 0, 16] {
                lines.push(append(DATE, &book.bytes, room, &message));
            }
            for more in [vec![0], vec![0xBA], message[..12].to_vec(), message.clone()] {
                let longer = [message.clone(), more].concat();
                lines.push(append(DATE, &book.bytes, size + 2, &longer));
            }
            lines.push(append(DATE, &book.bytes, size, &message[..size - 1]));
            lines.push(append(DATE + 1, &book.bytes, size, &message));
        }
    }
    for which in [ACKNOWLEDGMENT, EXECUTION] {
        let message = numbered(greatest(random, which), 31, 1);
        for room in [message.len(), message.len() - 1, 400] {
            lines.push(append(DATE, &empty().bytes, room, &message));
        }
    }
    let message = examples::booked_acknowledgment();
    lines.push(append(DATE, &empty().bytes, 2_100, &message));
    lines.push(append(DATE, &empty().bytes, 2_099, &message));
}

/// What is refused, with room for it and without.
fn refused_appends(lines: &mut Vec<String>, random: &mut Random) {
    let book = both(random);
    for message in bad_messages(random) {
        lines.push(append(DATE, &empty().bytes, message.len(), &message));
        lines.push(append(DATE, &empty().bytes, 0, &message));
    }
    for digits in [
        "-",
        "BA",
        "BABA",
        "BABA08",
        "BABA0800",
        "00",
        "BA00",
        "BB",
        "BABA0700",
        "BABAFF07",
        "BABA0800250101000000",
        "BABA0800260101000000",
        "BABA0800250001000000",
        "00000000C30035010000000010000000",
    ] {
        let message = hex::read(digits).expect("hex");
        for room in [0, 60] {
            lines.push(append(DATE, &empty().bytes, room, &message));
            lines.push(append(DATE, &example(), room, &message));
        }
    }
    // 14 and 15 come before 13, and after what the reader refuses.
    for unit in [1, 2] {
        let next = book.next(unit);
        for number in [
            next - 1,
            next + 1,
            0,
            next + 2,
            u32::MAX,
            0x0100_0000 + next,
        ] {
            for which in [ACKNOWLEDGMENT, EXECUTION] {
                let mut sample = Sample::least(random, which);
                let message = numbered(sample.clone(), unit, number);
                for room in [message.len(), message.len() - 1, 0] {
                    lines.push(append(DATE, &book.bytes, room, &message));
                }
                sample.value("ClOrdID")[0] = b';';
                let message = numbered(sample, unit, number);
                lines.push(append(DATE, &book.bytes, 0, &message));
            }
        }
    }
}

/// Onto a torn tail: its bytes are room too, and those past the message stay.
fn appends_after_cuts(lines: &mut Vec<String>, random: &mut Random) {
    let long = Made::new(DATE).with(greatest(random, ACKNOWLEDGMENT), 1);
    for (bytes, starts) in [
        (example(), vec![16, 73]),
        (both(random).bytes, vec![16, 64]),
        (long.bytes, vec![16]),
    ] {
        for start in starts {
            let end = bytes.len().min(start + 150);
            for cut in [
                start + 1,
                start + 3,
                start + 4,
                start + 10,
                start + 15,
                end - 1,
            ] {
                if cut >= bytes.len() {
                    continue;
                }
                let number = if start == 16 { 1 } else { 2 };
                let message = numbered(Sample::least(random, ACKNOWLEDGMENT), 1, number);
                let missing = (start + message.len()).saturating_sub(cut);
                for room in [missing, missing.saturating_sub(1), missing + 1, 0] {
                    lines.push(append(DATE, &bytes[..cut], room, &message));
                }
                let behind = numbered(Sample::least(random, ACKNOWLEDGMENT), 1, number - 1);
                lines.push(append(DATE, &bytes[..cut], missing, &behind));
                for room in [0, 15] {
                    lines.push(close(DATE, &bytes[..cut], room));
                }
            }
        }
    }
}

/// Books that restart refuses: nothing else is asked of the message or the room.
fn on_refused_books(lines: &mut Vec<String>) {
    let message = examples::booked_acknowledgment();
    let good = mark(DATE, 0, 0);
    for (date, book) in [
        (DATE, vec![]),
        (DATE, good[..15].to_vec()),
        (DATE, vec![0; 16]),
        (DATE, mark(DATE, 1, 0)),
        (DATE, [good.clone(), vec![1]].concat()),
        (DATE, [good.clone(), vec![0; 16]].concat()),
        (DATE + 1, good.clone()),
        (DATE + 1, good[..15].to_vec()),
        (20_250_832, good.clone()),
        (20_250_832, vec![]),
        (0, good),
    ] {
        for room in [0, 16, 57] {
            lines.push(append(date, &book, room, &message));
            lines.push(append(date, &book, room, &message[..9]));
            lines.push(append(date, &book, room, &[]));
            lines.push(close(date, &book, room));
        }
    }
}

/// The mark at a session's end, with room for it and without, also over a torn tail.
fn closes(lines: &mut Vec<String>, random: &mut Random) {
    let books = [
        empty(),
        marks(),
        both(random),
        units(random),
        Made::new(20_991_231).with(greatest(random, EXECUTION), 32),
    ];
    for book in books {
        for room in [0, 1, 15, 16, 17, 33] {
            lines.push(close(book.date, &book.bytes, room));
        }
        let start = book.starts[book.starts.len() - 1];
        for torn in 1..=MARK.min(book.bytes.len() - start) - 1 {
            if start == 0 {
                continue;
            }
            let cut = &book.bytes[..start + torn];
            for room in [MARK - torn, MARK - torn - 1] {
                lines.push(close(book.date, cut, room));
            }
        }
    }
    lines.push(close(DATE, &example(), 2_100));
}
