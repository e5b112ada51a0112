//! Questions about numbers in buffers, and about prices.

use crate::hex;
use crate::random::Random;

const WIDTHS: [u64; 3] = [2, 4, 8];

/// Places far past any buffer, among them those where adding a width wraps in 32 or 64 bits.
const FAR: [u64; 11] = [
    100,
    4_294_967_294,
    4_294_967_295,
    4_294_967_296,
    4_294_967_297,
    9_223_372_036_854_775_807,
    9_223_372_036_854_775_808,
    18_446_744_073_709_551_607,
    18_446_744_073_709_551_608,
    18_446_744_073_709_551_614,
    18_446_744_073_709_551_615,
];

pub fn ask(lines: &mut Vec<String>) {
    let mut random = Random::new(2);
    for width in WIDTHS {
        gets(lines, &mut random, width);
    }
    for width in WIDTHS {
        puts(lines, &mut random, width);
    }
    prices(lines, &mut random);
}

fn add_get(lines: &mut Vec<String>, width: u64, buffer: &[u8], at: u64) {
    lines.push(format!("get {} {} {}", width, hex::write(buffer), at));
}

fn add_put(lines: &mut Vec<String>, width: u64, buffer: &[u8], at: u64, value: u64) {
    lines.push(format!(
        "put {} {} {} {}",
        width,
        hex::write(buffer),
        at,
        value
    ));
}

fn gets(lines: &mut Vec<String>, random: &mut Random, width: u64) {
    for size in 0..=12 {
        let near = 0..=size as u64 + 2;
        for at in near.chain(FAR) {
            add_get(lines, width, &random.bytes(size), at);
        }
    }
    // One byte set at each place, so that each answer tells a power of 256.
    for place in 0..12 {
        let mut buffer = [0; 12];
        buffer[place] = 1;
        add_get(lines, width, &buffer, 2);
        add_get(lines, width, &[255; 12][..place], 0);
    }
}

fn puts(lines: &mut Vec<String>, random: &mut Random, width: u64) {
    let greatest = u64::MAX >> (64 - 8 * width);
    for size in 0..=12 {
        for at in 0..=size as u64 + 1 {
            let some = random.next() & greatest;
            for value in [0, 1, 255, 256, greatest, some] {
                add_put(lines, width, &random.bytes(size), at, value);
            }
        }
        for at in FAR {
            let value = random.next() & greatest;
            add_put(lines, width, &random.bytes(size), at, value);
        }
    }
}

fn prices(lines: &mut Vec<String>, random: &mut Random) {
    let mut values = vec![123400, -123400, -1, i64::MIN];
    for size in [
        0, 1, 9, 10, 99, 100, 999, 1000, 1001, 9998, 9999, 10000, 10001, 99999, 100000, 100001,
        1234500,
    ] {
        values.push(size);
        values.push(-size);
    }
    values.extend([i64::MAX - 1, i64::MAX, i64::MIN + 1, i64::MIN + 2]);
    values.push(i64::MIN + 5808);
    // Two of each size in bits, and their opposites.
    for bits in 1..=63 {
        for _ in 0..2 {
            let size = (random.next() >> (64 - bits)) as i64;
            values.push(size);
            values.push(-size);
        }
    }
    for value in values {
        lines.push(format!("price {}", hex::write(&value.to_le_bytes())));
    }
}
