//! Questions about the kinds of fields.

use crate::hex;
use crate::random::Random;
use crate::rules::kinds::{self, Kind};

/// The width of the identifiers and the longest field asked about here.
const WIDTH: usize = 20;

/// Bytes at the ends of the kinds' ranges, and NUL.
const ENDS: [u8; 24] = [
    0, 1, 31, b' ', b'!', b'/', b'0', b'9', b':', b'@', b'A', b'Z', b'[', b'`', b'a', b'z', b'{',
    b'|', b'}', b'~', 127, 128, 254, 255,
];

/// The five characters that identifiers exclude, each with both its neighbours.
const EXCLUDED: &[u8] = b"+,-:;<{|}?@A!\"#";

pub fn ask(lines: &mut Vec<String>) {
    let mut random = Random::new(3);
    // Days are asked about among the options orders.
    for kind in kinds::ALL.into_iter().filter(|kind| *kind != Kind::Day) {
        single_bytes(lines, kind);
        filling(lines, kind);
        texts(lines, &mut random, kind);
        excluded(lines, &mut random, kind);
    }
}

/// Both calls are asked about each field.
pub fn add(lines: &mut Vec<String>, kind: Kind, field: &[u8]) {
    lines.push(format!("kind {} {}", kind.letter(), hex::write(field)));
    lines.push(format!("filled {} {}", kind.letter(), hex::write(field)));
}

/// Each byte alone, and after a letter.
fn single_bytes(lines: &mut Vec<String>, kind: Kind) {
    for byte in 0..=255 {
        add(lines, kind, &[byte]);
    }
    for byte in 0..=255 {
        add(lines, kind, &[b'A', byte]);
    }
}

/// NULs alone, before and between other bytes.
fn filling(lines: &mut Vec<String>, kind: Kind) {
    for size in 0..=WIDTH {
        add(lines, kind, &vec![0; size]);
    }
    for byte in ENDS {
        add(lines, kind, &[0, byte]);
        add(lines, kind, &[b'Q', 0, byte]);
        add(lines, kind, &[byte, 0, b'q']);
        add(lines, kind, &[byte, 0, 0]);
    }
}

/// Fields of the full width: filled from each place on, and with one byte damaged at each place.
fn texts(lines: &mut Vec<String>, random: &mut Random, kind: Kind) {
    let good: Vec<u8> = (1..=255).filter(|byte| kind.takes(*byte)).collect();
    let mut bad: Vec<u8> = (1..=255).filter(|byte| !kind.takes(*byte)).collect();
    if bad.is_empty() {
        // B and P take every byte; one is changed nevertheless.
        bad = good.clone();
    }
    let text = |random: &mut Random, end: usize| -> Vec<u8> {
        let mut field = vec![0; WIDTH];
        for place in field.iter_mut().take(end) {
            *place = random.pick(&good);
        }
        field
    };
    for end in 0..=WIDTH {
        let field = text(random, end);
        add(lines, kind, &field);
        // The same with a stray byte, good in itself, in the filling.
        if end + 1 < WIDTH {
            let mut stray = field;
            stray[random.between(end + 1, WIDTH - 1)] = random.pick(&good);
            add(lines, kind, &stray);
        }
    }
    for place in 0..WIDTH {
        let mut field = text(random, WIDTH);
        field[place] = random.pick(&bad);
        add(lines, kind, &field);
        // A NUL there ends the text too early, save at the last place.
        field = text(random, WIDTH);
        field[place] = 0;
        add(lines, kind, &field);
    }
}

fn excluded(lines: &mut Vec<String>, random: &mut Random, kind: Kind) {
    for byte in EXCLUDED {
        let mut letters = [b'x'; WIDTH];
        letters[random.between(0, WIDTH - 1)] = *byte;
        add(lines, kind, &letters);
        add(lines, kind, &[*byte, b'1', 0, 0]);
    }
}
