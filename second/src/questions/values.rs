//! Values of fields and numbers, and bytes that a kind takes or does not take.

use crate::random::Random;
use crate::rules::kinds::Kind;

/// Bytes that a kind does not take, most of them next to one that it takes.
pub fn bad_bytes(kind: Kind) -> &'static [u8] {
    match kind {
        Kind::Letters => b"@[`{09 \x01\xC1\xFF",
        Kind::LettersAndDigits => b"/:@[`{ \x01\xC1\xFF",
        Kind::Text | Kind::FilledText => b"\x01\x1F\x7F\x80\xA0\xFF",
        Kind::Identifier => b" ,;|@\"\x1F\x7F\x80\xFF",
        Kind::Binary | Kind::Price | Kind::Day => b"",
    }
}

/// Bytes at the ends of what a kind takes.
pub fn end_bytes(kind: Kind) -> &'static [u8] {
    match kind {
        Kind::Letters => b"AZaz",
        Kind::LettersAndDigits => b"AZaz09",
        Kind::Text | Kind::FilledText => b" ~!}@,",
        Kind::Identifier => b"!~#+-:<?A{}",
        Kind::Binary | Kind::Price | Kind::Day => b"\x00\x01\x7F\x80\xFE\xFF",
    }
}

/// Days: the first and the last, those about the ends of months and years, and leap days.
pub const DAYS: [u32; 12] = [
    19_700_101, 20_991_231, 20_240_229, 20_000_229, 20_110_319, 20_110_228, 19_720_229, 20_960_229,
    20_240_430, 19_991_231, 20_000_101, 20_251_031,
];

/// Numbers that are no day: other years, months and days, and what is past eight digits.
pub const NO_DAYS: [u32; 30] = [
    0,
    1,
    19_691_231,
    21_000_101,
    20_110_229,
    21_000_229,
    19_000_228,
    20_240_230,
    20_250_431,
    20_250_631,
    20_250_931,
    20_251_131,
    20_250_132,
    20_251_232,
    20_250_100,
    20_251_200,
    20_250_015,
    20_251_315,
    20_259_915,
    20_250_000,
    20_259_999,
    19_700_100,
    20_991_232,
    101,
    1_231,
    110_319,
    120_110_319,
    202_403_190,
    20_110_319_u32.swap_bytes(),
    u32::MAX,
];

/// Whether the kind is one of texts, which have an end.
pub fn textual(kind: Kind) -> bool {
    can_be_bad(kind) && kind != Kind::Day
}

/// Whether there are values that the kind does not take.
pub fn can_be_bad(kind: Kind) -> bool {
    kind != Kind::Binary && kind != Kind::Price
}

/// The value of a round at the ends of a kind: one byte throughout, or a day.
pub fn end_value(kind: Kind, width: usize, round: usize) -> Vec<u8> {
    match kind {
        Kind::Day => DAYS[round % DAYS.len()].to_le_bytes().to_vec(),
        _ => {
            let bytes = end_bytes(kind);
            vec![bytes[round % bytes.len()]; width]
        }
    }
}

/// A day, with the ends among them.
fn some_day(random: &mut Random) -> Vec<u8> {
    let day = match random.below(4) {
        0 => DAYS[random.between(0, DAYS.len() - 1)],
        _ => {
            let (year, month) = (random.between(1970, 2099), random.between(1, 12));
            (10_000 * year + 100 * month + random.between(1, 28)) as u32
        }
    };
    day.to_le_bytes().to_vec()
}

/// A byte that the kind takes, NUL aside.
fn good_byte(random: &mut Random, kind: Kind) -> u8 {
    loop {
        let byte = random.byte();
        if byte != 0 && kind.takes(byte) {
            return byte;
        }
    }
}

/// As long as its field, without a NUL; or a day.
pub fn full_value(random: &mut Random, kind: Kind, width: usize) -> Vec<u8> {
    if kind == Kind::Day {
        return some_day(random);
    }
    (0..width).map(|_| good_byte(random, kind)).collect()
}

/// Texts of `least` characters or more, half of them full; numbers and days with their ends among them.
pub fn some_value(random: &mut Random, kind: Kind, width: usize, least: usize) -> Vec<u8> {
    if kind == Kind::Day {
        return some_day(random);
    }
    if !textual(kind) {
        return match random.below(8) {
            0 => vec![0; width],
            1 => vec![255; width],
            _ => random.bytes(width),
        };
    }
    let least = match kind {
        Kind::FilledText => least.max(1),
        _ => least,
    };
    let end = match random.below(2) {
        0 => width,
        _ => random.between(least, width),
    };
    let mut value = full_value(random, kind, end);
    value.resize(width, 0);
    value
}

/// Makes a text bad: by its first byte, by its last, or by a character after a NUL. Makes a day a number
/// that is none.
pub fn spoil(random: &mut Random, kind: Kind, value: &mut [u8]) {
    if kind == Kind::Day {
        let number = NO_DAYS[random.between(0, NO_DAYS.len() - 1)];
        value.copy_from_slice(&number.to_le_bytes());
        return;
    }
    let last = value.len() - 1;
    let bad = random.pick(bad_bytes(kind));
    match random.below(3) {
        0 => value[0] = bad,
        1 if last > 0 => {
            value[random.between(0, last - 1)] = 0;
            value[last] = b'A';
        }
        _ => value[last] = bad,
    }
}

/// A number of a header or a pair, with both ends and small ones among them.
pub fn some_number(random: &mut Random) -> u32 {
    match random.below(8) {
        0 => 0,
        1 => u32::MAX,
        2 => random.below(256) as u32,
        _ => random.number(),
    }
}

#[cfg(test)]
mod tests {
    use super::*;
    use crate::rules::kinds;

    #[test]
    fn bad_and_end_bytes() {
        for kind in kinds::ALL {
            assert!(bad_bytes(kind).iter().all(|byte| !kind.takes(*byte)));
            assert!(end_bytes(kind).iter().all(|byte| kind.takes(*byte)));
            assert_eq!(bad_bytes(kind).is_empty(), !textual(kind));
        }
    }

    #[test]
    fn days_and_others() {
        for (numbers, expected) in [(&DAYS[..], true), (&NO_DAYS, false)] {
            for number in numbers {
                let agrees = kinds::agrees(Kind::Day, &number.to_le_bytes());
                assert_eq!(agrees, expected, "{}", number);
            }
        }
        let mut random = Random::new(195);
        for _ in 0..1_000 {
            assert!(kinds::agrees(Kind::Day, &some_day(&mut random)));
        }
    }

    #[test]
    fn spoiled_values() {
        let mut random = Random::new(193);
        for kind in kinds::ALL.into_iter().filter(|kind| can_be_bad(*kind)) {
            let widths: &[usize] = match kind {
                Kind::Day => &[4],
                _ => &[1, 2, 20],
            };
            for width in widths.iter().copied() {
                for _ in 0..100 {
                    let mut value = some_value(&mut random, kind, width, 0);
                    spoil(&mut random, kind, &mut value);
                    assert!(!kinds::agrees(kind, &value));
                }
            }
        }
    }
}
