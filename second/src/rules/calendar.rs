//! Days as YYYYMMDD (document 01, refusal 19).

use super::Refusal;

const FIRST_YEAR: u32 = 1970;
const LAST_YEAR: u32 = 2099;

fn leap(year: u32) -> bool {
    (year % 4 == 0 && year % 100 != 0) || year % 400 == 0
}

/// Days in a month; none for what is no month.
fn days(year: u32, month: u32) -> u32 {
    match month {
        1 | 3 | 5 | 7 | 8 | 10 | 12 => 31,
        4 | 6 | 9 | 11 => 30,
        2 => {
            if leap(year) {
                29
            } else {
                28
            }
        }
        _ => 0,
    }
}

/// 19 for what is no day.
pub fn check(date: u32) -> Result<(), Refusal> {
    let year = date / 10_000;
    let month = date / 100 % 100;
    let day = date % 100;
    if !(FIRST_YEAR..=LAST_YEAR).contains(&year) {
        return Err(Refusal::Day);
    }
    if day < 1 || day > days(year, month) {
        return Err(Refusal::Day);
    }
    Ok(())
}

#[cfg(test)]
mod tests {
    use super::*;

    #[test]
    fn leap_years() {
        for year in [1600, 1972, 1996, 2000, 2004, 2024, 2096, 2400] {
            assert!(leap(year), "{}", year);
        }
        for year in [1700, 1800, 1900, 1970, 1999, 2001, 2023, 2099, 2100, 2200] {
            assert!(!leap(year), "{}", year);
        }
        let leaps = (FIRST_YEAR..=LAST_YEAR).filter(|year| leap(*year)).count();
        assert_eq!(leaps, 32);
    }

    #[test]
    fn known_dates() {
        for date in [19700101, 20000229, 20240229, 20250819, 20991231] {
            assert_eq!(check(date), Ok(()), "{}", date);
        }
        for date in [
            0,
            19691231,
            21000101,
            20230229,
            20250230,
            20250431,
            20250100,
            20250132,
            20250001,
            20251301,
            20259901,
            119700101,
            u32::MAX,
        ] {
            assert_eq!(check(date), Err(Refusal::Day), "{}", date);
        }
    }

    /// The sum by years, and whole weeks from the first day to the last: both are Thursdays.
    #[test]
    fn count_of_all_days() {
        let count = (0..22_000_000).filter(|date| check(*date).is_ok()).count();
        assert_eq!(count, 130 * 365 + 32);
        assert_eq!((count - 1) % 7, 0);
    }
}
