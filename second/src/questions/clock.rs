//! Questions about days, heartbeats and silence.

use crate::random::Random;

pub fn ask(lines: &mut Vec<String>) {
    let mut random = Random::new(5);
    days(lines, &mut random);
    years(lines);
    pulses(lines, &mut random);
}

fn add_day(lines: &mut Vec<String>, date: u64) {
    lines.push(format!("day {}", date));
}

/// Days about every end, and damaged ones; `years` has the ordinary ones.
fn days(lines: &mut Vec<String>, random: &mut Random) {
    for date in [
        0, 1, 99, 100, 101, 9999, 10000, 10101, 700101, 991231, 19691231, 19700100, 19700101,
        19700102, 20991230, 20991231, 20991232, 21000101, 20000229, 20000230, 21000229, 21000228,
        19000229, 16000229, 20240229, 20230229, 20960229, 20990229, 20250819, 20250001, 20251301,
        20259901, 20250199, 99991231, 99999999, 100000000, 119700101, 120240229, 1970010100,
        2024022900, 2147483647, 2147483648, 4294967294, 4294967295,
    ] {
        add_day(lines, date);
    }
    for year in [1970, 2000, 2023, 2024, 2099] {
        for month in 0..=13 {
            for day in [0, 1, 28, 29, 30, 31, 32] {
                add_day(lines, year * 10000 + month * 100 + day);
            }
        }
    }
    for _ in 0..100 {
        add_day(lines, u64::from(random.number()));
    }
    for _ in 0..100 {
        add_day(lines, random.below(100000000));
    }
    // A date with one of its digits drawn anew.
    for _ in 0..300 {
        let year = 1970 + random.below(130);
        let month = 1 + random.below(12);
        let day = 1 + random.below(31);
        let mut digits = format!("{:04}{:02}{:02}", year, month, day).into_bytes();
        digits[random.between(0, 7)] = b'0' + random.below(10) as u8;
        let text: String = digits.into_iter().map(char::from).collect();
        lines.push(format!("day {}", text));
    }
}

fn years(lines: &mut Vec<String>) {
    for year in (1969..=2100).chain([0, 1, 1600, 1900, 1968, 2101, 2400, 9999]) {
        lines.push(format!("year {}", year));
    }
}

fn add_pulse(lines: &mut Vec<String>, now: u32, then: u32) {
    lines.push(format!("due {} {}", now, then));
    lines.push(format!("silent {} {}", now, then));
}

fn pulses(lines: &mut Vec<String>, random: &mut Random) {
    const THENS: [u32; 14] = [
        0, 1, 1000, 5000, 123456, 2147483647, 2147483648, 4294962295, 4294962296, 4294966295,
        4294966296, 4294967290, 4294967294, 4294967295,
    ];
    // The last four are times up to 5,000 before THEN, which count as nearly a whole round.
    const ELAPSED: [u32; 16] = [
        0, 1, 500, 999, 1000, 1001, 4999, 5000, 5001, 65536, 2147483647, 2147483648, 4294962296,
        4294966296, 4294967294, 4294967295,
    ];
    add_pulse(lines, 994, 4294967290);
    add_pulse(lines, 993, 4294967290);
    for then in THENS {
        for elapsed in ELAPSED {
            add_pulse(lines, then.wrapping_add(elapsed), then);
        }
    }
    for _ in 0..100 {
        add_pulse(lines, random.number(), random.number());
    }
    for _ in 0..200 {
        let then = random.number();
        let elapsed = random.below(6000) as u32;
        add_pulse(lines, then.wrapping_add(elapsed), then);
    }
}
