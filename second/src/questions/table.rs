//! Questions about the table step.

use crate::hex;
use crate::random::Random;

const SIZE: usize = 128;

pub fn ask(lines: &mut Vec<String>) {
    let mut random = Random::new(4);
    zero_tables(lines);
    entries(lines, &mut random);
    carries(lines, &mut random);
    every_unit(lines, &mut random);
    other_sizes(lines, &mut random);
    random_steps(lines, &mut random);
}

fn add(lines: &mut Vec<String>, table: &[u8], unit: u8, number: u32) {
    lines.push(format!("step {} {} {}", hex::write(table), unit, number));
}

/// A table of random bytes; if the unit has a place in it, the entry there is `entry`.
fn table_with(random: &mut Random, size: usize, unit: u8, entry: u32) -> Vec<u8> {
    let mut table = random.bytes(size);
    let end = 4 * usize::from(unit);
    if unit > 0 && end <= size {
        table[end - 4..end].copy_from_slice(&entry.to_le_bytes());
    }
    table
}

fn entry_of(table: &[u8], unit: u8) -> u32 {
    let end = 4 * usize::from(unit);
    let bytes = &table[end - 4..end];
    u32::from_le_bytes([bytes[0], bytes[1], bytes[2], bytes[3]])
}

/// The numbers about an entry that there are, and both ends; none twice.
fn about(entry: u32) -> Vec<u32> {
    let mut numbers: Vec<u32> = Vec::new();
    let near = [
        entry.checked_sub(1),
        Some(entry),
        entry.checked_add(1),
        entry.checked_add(2),
    ];
    for number in near.into_iter().flatten().chain([0, u32::MAX]) {
        if !numbers.contains(&number) {
            numbers.push(number);
        }
    }
    numbers
}

fn zero_tables(lines: &mut Vec<String>) {
    for unit in [1, 2, 31, 32] {
        for number in [1, 2, 0] {
            add(lines, &[0; SIZE], unit, number);
        }
    }
}

fn entries(lines: &mut Vec<String>, random: &mut Random) {
    for unit in [0, 1, 2, 31, 32, 33, 255] {
        for entry in [
            0,
            1,
            4_294_967_294,
            4_294_967_295,
            random.number(),
            random.number(),
        ] {
            for number in about(entry) {
                let table = table_with(random, SIZE, unit, entry);
                add(lines, &table, unit, number);
            }
        }
    }
}

/// Entries whose next number changes several bytes.
fn carries(lines: &mut Vec<String>, random: &mut Random) {
    for entry in [255, 65_535, 16_777_215, 2_147_483_647] {
        for unit in [1, 32] {
            for number in [entry, entry + 1, entry + 2] {
                let table = table_with(random, SIZE, unit, entry);
                add(lines, &table, unit, number);
            }
        }
    }
}

/// Each unit's own entry in one table; and all units on no table, where only 5 and 13 can come.
fn every_unit(lines: &mut Vec<String>, random: &mut Random) {
    let table = random.bytes(SIZE);
    for unit in 1..=32 {
        add(lines, &table, unit, entry_of(&table, unit).wrapping_add(1));
    }
    for unit in 0..=255 {
        add(lines, &[], unit, 1);
    }
}

/// Buffers too short, which come after the unit and before the number, and longer ones.
fn other_sizes(lines: &mut Vec<String>, random: &mut Random) {
    for size in [0, 1, 4, 127] {
        for unit in [0, 1, 31, 32, 33, 255] {
            for number in [0, 1, u32::MAX] {
                add(lines, &vec![0; size], unit, number);
            }
        }
    }
    for size in [127, 129, 131, 200] {
        for unit in [1, 32, 33] {
            let entry = random.number();
            for number in about(entry) {
                let table = table_with(random, size, unit, entry);
                add(lines, &table, unit, number);
            }
        }
    }
}

/// Random tables; half of the numbers are the next ones, the others about them or anywhere.
fn random_steps(lines: &mut Vec<String>, random: &mut Random) {
    for _ in 0..160 {
        let table = random.bytes(SIZE);
        let unit = random.between(1, 32) as u8;
        let entry = entry_of(&table, unit);
        let number = match random.below(6) {
            0 => random.number(),
            1 => entry.wrapping_sub(random.below(3) as u32),
            2 => entry.wrapping_add(2 + random.below(3) as u32),
            _ => entry.wrapping_add(1),
        };
        add(lines, &table, unit, number);
    }
}
