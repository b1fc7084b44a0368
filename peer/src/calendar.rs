//! Days and dates: the Gregorian calendar by its own rules, whole centuries, years and months counted off one after the other. Day 0 is
//! 1858-11-17 (001, 10.7.5.5), and every number of 32 bits is a day. Sums of days pass 32 bits, so that all is counted in 64.

/// A year, month and day, whether the calendar has them or not.
#[derive(Clone, Copy, Debug, PartialEq, Eq)]
pub struct Date {
    /// Year.
    pub year: u64,
    /// From 1, January.
    pub month: u64,
    /// Of the month, from 1.
    pub day: u64,
}

/// The calendar is the same again after so many years: there begins the last such stretch before day 0.
const AGAIN: u64 = 400;
const FIRST_YEAR: u64 = 1601;
/// The days of these years.
const DAYS_AGAIN: u64 = 97 * 366 + (AGAIN - 97) * 365;
/// Days from 1601-01-01 to day 0: tests/dates.rs counts them.
const BEFORE: u64 = 94_187;

/// Every fourth year, but of the hundreds every fourth alone.
fn is_leap(year: u64) -> bool {
    year.is_multiple_of(4) && (!year.is_multiple_of(100) || year.is_multiple_of(400))
}

/// How many days a year has.
fn days_of_year(year: u64) -> u64 {
    if is_leap(year) {
        366
    } else {
        365
    }
}

/// How many days a month has, one of the twelve.
pub fn days_of_month(year: u64, month: u64) -> u64 {
    match month {
        2 if is_leap(year) => 29,
        2 => 28,
        4 | 6 | 9 | 11 => 30,
        _ => 31,
    }
}

/// The date of a day.
pub fn date_of(day: u32) -> Date {
    let since = BEFORE + u64::from(day);
    let mut date = Date { year: FIRST_YEAR + since / DAYS_AGAIN * AGAIN, month: 1, day: 1 };
    let mut left = since % DAYS_AGAIN;
    while left >= days_of_year(date.year) {
        left -= days_of_year(date.year);
        date.year += 1;
    }
    while left >= days_of_month(date.year, date.month) {
        left -= days_of_month(date.year, date.month);
        date.month += 1;
    }
    date.day += left;
    date
}

/// The day of a date, where the calendar has it and a day is its own: from 1858-11-17 to 11761079-12-06.
pub fn day_of(date: Date) -> Option<u32> {
    let Date { year, month, day } = date;
    if !(1..=12).contains(&month) || !(1..=days_of_month(year, month)).contains(&day) {
        return None;
    }
    let since_first = year.checked_sub(FIRST_YEAR)?;
    let whole = since_first / AGAIN;
    let years = FIRST_YEAR + whole * AGAIN..year;
    let days = whole * DAYS_AGAIN
        + years.map(days_of_year).sum::<u64>()
        + (1..month).map(|month| days_of_month(year, month)).sum::<u64>()
        + (day - 1);
    u32::try_from(days.checked_sub(BEFORE)?).ok()
}
