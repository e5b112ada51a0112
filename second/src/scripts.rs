//! Makes the stored scripts and more of them (README.md, "Scripts").

mod day;
mod driver;
mod faults;
mod garbage;
mod last;
mod outside;
mod places;
mod same;
#[cfg(test)]
mod tests;
mod wrong;

use crate::random::Random;
use day::Days;
use driver::Driver;

/// Days and rounds are added until a script has so many lines, those about last messages not counted.
const LEAST: usize = 700;

#[derive(Clone, Copy, Debug)]
enum Kind {
    Days(Days),
    Faults,
    Garbage,
    Outside,
    Places,
    Same,
}

/// Little goes wrong.
const QUIET: Days = Days {
    book_room: (2_500, 3_400),
    log_room: (2_500, 3_400),
    units: 4,
    steps: (60, 120),
    disturbed: 4,
    wrong: 3,
    choices: false,
    options: 0,
};
/// As long as the buffers let it be.
const LONG: Days = Days {
    book_room: (3_300, 3_500),
    log_room: (3_300, 3_500),
    units: 8,
    steps: (330, 380),
    disturbed: 2,
    ..QUIET
};
/// Lines break and processes stop all the time.
const BROKEN: Days = Days {
    disturbed: 18,
    wrong: 2,
    ..QUIET
};
/// Logins choose their units.
const CHOOSING: Days = Days {
    units: 6,
    disturbed: 12,
    wrong: 5,
    choices: true,
    ..QUIET
};
/// The buffers end early.
const NARROW: Days = Days {
    book_room: (16, 600),
    log_room: (100, 900),
    disturbed: 10,
    wrong: 6,
    ..QUIET
};
/// Much is refused, to members of either market.
const WRONG: Days = Days {
    disturbed: 8,
    wrong: 50,
    choices: true,
    options: 50,
    ..QUIET
};
/// Members of an options market.
const OPTIONS: Days = Days {
    options: 100,
    ..QUIET
};
/// An opening or a restart may name another market than the one before.
const EITHER: Days = Days {
    options: 50,
    ..BROKEN
};

const STORED: [Kind; 23] = [
    Kind::Days(QUIET),
    Kind::Days(LONG),
    Kind::Days(BROKEN),
    Kind::Days(BROKEN),
    Kind::Days(BROKEN),
    Kind::Days(CHOOSING),
    Kind::Days(CHOOSING),
    Kind::Days(NARROW),
    Kind::Days(NARROW),
    Kind::Days(WRONG),
    Kind::Days(WRONG),
    Kind::Days(WRONG),
    Kind::Faults,
    Kind::Garbage,
    Kind::Garbage,
    Kind::Garbage,
    Kind::Garbage,
    Kind::Outside,
    Kind::Places,
    Kind::Days(BROKEN),
    Kind::Days(OPTIONS),
    Kind::Days(EITHER),
    Kind::Same,
];
const SEED: u64 = 120;

/// The stored scripts, each line ended by LF.
pub fn stored() -> String {
    let mut output = String::new();
    for (index, kind) in STORED.into_iter().enumerate() {
        output.push_str(&text(&script(SEED + index as u64, kind)));
    }
    output
}

/// `count` further scripts; the same seed gives the same ones, a smaller count the first of them.
pub fn more(seed: u64, count: usize) -> impl Iterator<Item = String> {
    let mut random = Random::new(seed);
    (0..count).map(move |_| {
        let kind = STORED[random.between(0, STORED.len() - 1)];
        text(&script(random.next(), kind))
    })
}

fn text(lines: &[String]) -> String {
    let mut text = lines.join("\n");
    text.push('\n');
    text
}

/// The lines of one script. It ends with both books.
fn script(seed: u64, kind: Kind) -> Vec<String> {
    let mut driver = Driver::new(Random::new(seed));
    loop {
        match kind {
            Kind::Days(days) => day::day(&mut driver, &days),
            Kind::Faults => faults::round(&mut driver),
            Kind::Garbage => garbage::round(&mut driver),
            Kind::Outside => among_days(&mut driver),
            Kind::Places => places::round(&mut driver),
            Kind::Same => same::round(&mut driver),
        }
        // Once is enough of the lines outside the format.
        if driver.count() >= LEAST || matches!(kind, Kind::Outside) {
            break;
        }
    }
    driver.end();
    driver.lines
}

/// Lines outside the format between the days, with both books after some of them.
fn among_days(driver: &mut Driver) {
    let lines = outside::lines(driver);
    for some in lines.chunks(25) {
        day::day(driver, &QUIET);
        for line in some {
            driver.ask(line.clone());
        }
    }
}
