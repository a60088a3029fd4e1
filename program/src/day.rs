//! Days: their numbers, counted from 1970-01-01 as day 0, and their dates in the Gregorian calendar.

use serde::Serialize;

/// A day, by its number.
#[derive(Clone, Copy, Debug, PartialEq, Eq, PartialOrd, Ord)]
pub struct Day(pub u32);

/// The days of 400 years.
const ERA: u32 = 146_097;

/// How many days lie between 0000-03-01 and 1970-01-01.
const BEFORE: u32 = 719_468;

/// The number of 9999-12-31, the last day with a date.
const LAST: u32 = 2_932_896;

fn is_leap(year: u32) -> bool {
    year % 4 == 0 && (year % 100 != 0 || year % 400 == 0)
}

fn days_of(year: u32, month: u32) -> u32 {
    match month {
        2 if is_leap(year) => 29,
        2 => 28,
        4 | 6 | 9 | 11 => 30,
        _ => 31,
    }
}

/// The number of a date from 1970 on. Years are counted from March, so that a leap day is the last of its year.
fn number(year: u32, month: u32, day: u32) -> u32 {
    let (year, month) = if month > 2 { (year, month - 3) } else { (year - 1, month + 9) };
    let (era, of_era) = (year / 400, year % 400);
    let of_year = (153 * month + 2) / 5 + day - 1;
    era * ERA + of_era * 365 + of_era / 4 - of_era / 100 + of_year - BEFORE
}

const HOW: &str = "a day is a number from 0 to 4294967295, or a date as 2026-11-17";

impl Day {
    /// A day that was typed: a number, or a date.
    pub fn typed(text: &str) -> Result<Self, String> {
        let digits = |text: &str| !text.is_empty() && text.bytes().all(|b| b.is_ascii_digit());
        if digits(text) {
            return text.parse().map(Self).map_err(|_| HOW.to_owned());
        }
        let parts: Vec<&str> = text.split('-').collect();
        let [year, month, day] = parts[..] else { return Err(HOW.to_owned()) };
        if ![(year, 4), (month, 2), (day, 2)].iter().all(|&(part, n)| digits(part) && part.len() == n) {
            return Err(HOW.to_owned());
        }
        let of = |part: &str| part.parse::<u32>().map_err(|_| HOW.to_owned());
        let (year, month, day) = (of(year)?, of(month)?, of(day)?);
        match (1..=12).contains(&month) && (1..=days_of(year, month)).contains(&day) {
            false => Err("there is no such day in the calendar".to_owned()),
            true if year < 1970 => Err("days are counted from 1970-01-01, which is day 0".to_owned()),
            true => Ok(Self(number(year, month, day))),
        }
    }

    /// Its date; none after 9999-12-31.
    pub fn date(self) -> Option<String> {
        let Self(n) = self;
        if n > LAST {
            return None;
        }
        let (era, of_era) = ((n + BEFORE) / ERA, (n + BEFORE) % ERA);
        let year = (of_era - of_era / 1_460 + of_era / 36_524 - of_era / 146_096) / 365;
        let of_year = of_era - (365 * year + year / 4 - year / 100);
        let month = (5 * of_year + 2) / 153;
        let day = of_year - (153 * month + 2) / 5 + 1;
        let month = if month < 10 { month + 3 } else { month - 9 };
        let year = 400 * era + year + u32::from(month <= 2);
        Some(format!("{year:04}-{month:02}-{day:02}"))
    }

    /// For people: its number, and its date.
    pub fn words(self) -> String {
        match self.date() {
            Some(date) => format!("{} ({date})", self.0),
            None => self.0.to_string(),
        }
    }
}

#[derive(Serialize)]
pub struct DayJson {
    number: u32,
    date: Option<String>,
}

impl DayJson {
    pub fn of(day: Day) -> Self {
        Self { number: day.0, date: day.date() }
    }
}

#[cfg(test)]
mod tests {
    use super::*;

    /// Known days: those of 86,400 seconds of Unix time each.
    #[test]
    fn known() {
        for (n, date) in [
            (0, "1970-01-01"),
            (58, "1970-02-28"),
            (59, "1970-03-01"),
            (789, "1972-02-29"),
            (10_957, "2000-01-01"),
            (11_016, "2000-02-29"),
            (20_000, "2024-10-04"),
            (24_855, "2038-01-19"),
            (47_540, "2100-02-28"),
            (47_541, "2100-03-01"),
            (LAST, "9999-12-31"),
        ] {
            assert_eq!(Day::typed(date), Ok(Day(n)), "{date}");
            assert_eq!(Day(n).date().as_deref(), Some(date));
            assert_eq!(Day::typed(&n.to_string()), Ok(Day(n)));
        }
        assert_eq!(Day(LAST + 1).date(), None);
        assert_eq!(Day::typed("4294967295"), Ok(Day(u32::MAX)));
        assert_eq!(Day(u32::MAX).date(), None);
    }

    /// Every day with a date, one after the other.
    #[test]
    fn all() {
        let mut n = 0;
        for year in 1970..=9999 {
            for month in 1..=12 {
                for day in 1..=days_of(year, month) {
                    let date = format!("{year:04}-{month:02}-{day:02}");
                    assert_eq!((number(year, month, day), Day(n).date()), (n, Some(date)));
                    n += 1;
                }
            }
        }
        assert_eq!(n, LAST + 1);
    }

    #[test]
    fn wrong() {
        for text in [
            "",
            "-1",
            "+1",
            "1.5",
            "1e3",
            "4294967296",
            "99999999999",
            "2026-11",
            "26-11-17",
            "2026-1-17",
            "2026-11-7",
            "2026/11/17",
            "2026-11-17-",
            "20261-1-17",
            "1969-12-31",
            "0000-01-01",
            "2026-00-17",
            "2026-13-17",
            "2026-11-00",
            "2026-11-31",
            "2026-02-29",
            "2100-02-29",
            "2026-11-1x",
            "today",
        ] {
            assert!(Day::typed(text).is_err(), "{text}");
        }
    }
}
