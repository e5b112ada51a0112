//! Questions about framing.

use crate::hex;
use crate::random::Random;

pub fn ask(lines: &mut Vec<String>) {
    let mut random = Random::new(1);
    short_buffers(lines);
    starts(lines);
    lengths(lines);
    totals(lines, &mut random);
    headers(lines);
    random_buffers(lines, &mut random);
}

fn add(lines: &mut Vec<String>, buffer: &[u8]) {
    lines.push(format!("frame {}", hex::write(buffer)));
}

/// A message of `total` bytes whose length field says so, its other bytes random.
fn message(random: &mut Random, total: usize) -> Vec<u8> {
    let mut bytes = random.bytes(total);
    let length = (total - 2) as u16;
    bytes[0] = 0xBA;
    bytes[1] = 0xBA;
    bytes[2..4].copy_from_slice(&length.to_le_bytes());
    bytes
}

/// Every buffer of 0 to 12 bytes whose first five are among a few that matter.
fn short_buffers(lines: &mut Vec<String>) {
    const CHOICES: [u8; 5] = [0xBA, 0x00, 0x07, 0x08, 0x09];
    const FILLER: [u8; 12] = [0, 0, 0, 0, 0, 0x11, 0x22, 0x33, 0x44, 0x55, 0x66, 0x77];
    for size in 0..=FILLER.len() {
        let chosen = size.min(CHOICES.len());
        for combination in 0..CHOICES.len().pow(chosen as u32) {
            let mut buffer = FILLER[..size].to_vec();
            let mut rest = combination;
            for place in (0..chosen).rev() {
                buffer[place] = CHOICES[rest % CHOICES.len()];
                rest /= CHOICES.len();
            }
            add(lines, &buffer);
        }
    }
}

/// Every pair of first bytes near BA, in buffers cut at each place that matters.
fn starts(lines: &mut Vec<String>) {
    const CHOICES: [u8; 4] = [0xBA, 0xBB, 0xB9, 0x00];
    const REST: [u8; 9] = [0x08, 0x00, 0x37, 0x00, 0x01, 0x00, 0x00, 0x00, 0xBA];
    for first in CHOICES {
        add(lines, &[first]);
    }
    for first in CHOICES {
        for second in CHOICES {
            let mut buffer = vec![first, second];
            buffer.extend(REST);
            for end in [2, 3, 4, 5, 9, 10, 11] {
                add(lines, &buffer[..end]);
            }
            // A wrong start comes before a wrong length.
            add(lines, &[first, second, 0x07, 0x00, 0x37]);
        }
    }
}

/// The length field about its limits, and the same bytes the other way round.
fn lengths(lines: &mut Vec<String>) {
    for length in [
        0_u16, 1, 2, 6, 7, 8, 9, 10, 255, 256, 2045, 2046, 2047, 2048, 2049, 32767, 32768, 65534,
        65535,
    ] {
        for field in [length.to_le_bytes(), length.to_be_bytes()] {
            let mut buffer = vec![0xBA, 0xBA, field[0], field[1]];
            buffer.extend([0x38, 0x00, 0x05, 0x00, 0x00, 0x00, 0x41, 0x42, 0x43]);
            for end in [3, 4, 8, 9, 10, 11, 12, 13] {
                add(lines, &buffer[..end]);
            }
        }
    }
    // Buffers that hold all that a length out of its range asks for.
    for length in [2047_u16, 2048] {
        let mut buffer = vec![0; usize::from(length) + 2];
        buffer[..2].copy_from_slice(&[0xBA, 0xBA]);
        buffer[2..4].copy_from_slice(&length.to_le_bytes());
        add(lines, &buffer);
    }
}

/// Buffers of one byte less than the total, just the total and one more.
fn totals(lines: &mut Vec<String>, random: &mut Random) {
    for total in [10, 11, 31, 76, 2047, 2048] {
        let mut buffer = message(random, total);
        buffer.push(random.byte());
        for end in [total - 1, total, total + 1] {
            add(lines, &buffer[..end]);
        }
    }
}

/// Header parts at their ends, and numbers that tell their byte order.
fn headers(lines: &mut Vec<String>) {
    for kind in [0x00, 0x25, 0x37, 0xFF] {
        for unit in [0, 1, 32, 33, 255] {
            for number in [0, 1, 0x0102_0304, 0x8000_0000, 0xFFFF_FFFE, 0xFFFF_FFFF_u32] {
                let mut buffer = vec![0xBA, 0xBA, 0x08, 0x00, kind, unit];
                buffer.extend(number.to_le_bytes());
                add(lines, &buffer);
            }
        }
    }
}

fn random_buffers(lines: &mut Vec<String>, random: &mut Random) {
    // Whole messages, with and without bytes after them.
    for _ in 0..250 {
        let total = random.between(10, 60);
        let mut buffer = message(random, total);
        let after = random.between(0, 12);
        buffer.extend(random.bytes(after));
        add(lines, &buffer);
    }
    // Messages cut somewhere.
    for _ in 0..100 {
        let total = random.between(10, 60);
        let end = random.between(0, total - 1);
        add(lines, &message(random, total)[..end]);
    }
    // Messages with one of their first four bytes damaged.
    for _ in 0..150 {
        let total = random.between(10, 40);
        let mut buffer = message(random, total);
        buffer[random.between(0, 3)] = random.byte();
        add(lines, &buffer);
    }
    for _ in 0..100 {
        let size = random.between(0, 40);
        add(lines, &random.bytes(size));
    }
}
