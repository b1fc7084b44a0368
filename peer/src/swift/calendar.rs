//! Days and dates by formulas, no step for a year or a month: a year counted from March has its leap day last, and its months' lengths
//! lie on a line.

use crate::bim;

/// Days from 0000-03-01 to day 0, 1858-11-17.
const BEFORE: u64 = 678_881;
/// Four hundred years, and a fourth of that without its last leap day.
const CENTURIES: u64 = 146_097;

/// The two words of a dateTime: year and month, day and milliseconds.
#[inline(always)]
pub fn words_of(days: u32, ms: u32) -> (u32, u32) {
    let quarters = 4 * (u64::from(days) + BEFORE) + 3;
    let century = quarters / CENTURIES;
    let quarters = (quarters % CENTURIES) | 3;
    // A year has 1461 quarters of a day: divided by as a multiplication, whose low half has the day of the year.
    let product = 2_939_745 * quarters;
    let year = 100 * century + (product >> 32);
    let of_year = (product as u32) / 2_939_745 / 4;
    let line = 2141 * of_year + 197_913;
    // January and February belong to the next year.
    let late = of_year >= 306;
    let month = (line >> 16) - if late { 12 } else { 0 };
    let day = (line & 0xffff) / 2141 + 1;
    (((year as u32) + u32::from(late)) << bim::MONTH_BITS | month, day << bim::MS_BITS | ms)
}

/// Days and milliseconds of two words that are a date among the 2^32, and a time of day.
#[inline(always)]
pub fn days_of(word: u32, second: u32) -> Option<(u32, u32)> {
    let (year, month) = (word >> bim::MONTH_BITS, word & ((1 << bim::MONTH_BITS) - 1));
    let (day, ms) = (second >> bim::MS_BITS, second & ((1 << bim::MS_BITS) - 1));
    if month.wrapping_sub(1) >= 12 || day.wrapping_sub(1) >= length(year, month) || ms >= bim::DAY_MS {
        return None;
    }
    let late = month <= 2;
    let (year, month) = (u64::from(year) + 400 - u64::from(late), u64::from(month) + if late { 12 } else { 0 });
    let century = year / 100;
    let days = 1461 * year / 4 - century + century / 4 + (979 * month - 2919) / 32 + u64::from(day - 1);
    // The 400 years more keep January of the year 0 above 0.
    let days = days.wrapping_sub(BEFORE + CENTURIES);
    u32::try_from(days).ok().map(|days| (days, ms))
}

/// The days of one of the twelve months.
#[inline(always)]
fn length(year: u32, month: u32) -> u32 {
    if month == 2 {
        // A hundred that is a multiple of 16 is one of 400.
        let among = if year.is_multiple_of(100) { 15 } else { 3 };
        return 28 + u32::from(year & among == 0);
    }
    30 + ((month ^ (month >> 3)) & 1)
}
