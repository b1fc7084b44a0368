//! Simple values, kinds 0 to 8.

use crate::bim;
use crate::bits::{fixed, Code};
use crate::calendar::{date_of, day_of, Date};
use crate::codes::{read_choice, read_range, strict5, write5, write_choice, write_range, Taken};
use crate::utf8;

/// A simple value as it was read. A text's bytes are the last `8 * text` of its bits.
#[derive(Clone, Copy, Debug, PartialEq, Eq)]
pub struct Value {
    /// The value word.
    pub word: u32,
    /// The word behind it, 0 but for a date.
    pub second: u32,
    /// All bits of the value, a text's bytes included.
    pub bits: usize,
    /// The text's bytes, 0 for the other kinds.
    pub text: usize,
}

/// Reads a value of a simple kind with the parameters of its row.
#[inline]
pub fn read(kind: u32, b: u32, c: u32, payload: &[u8], end: usize, at: usize) -> Result<Value, u32> {
    let taken = match kind {
        bim::BOOLEAN => read_choice(2, payload, end, at)?,
        bim::RANGED => read_range(b as i32, c as i32, payload, end, at)?,
        bim::UNSIGNED => strict5(payload, end, at)?,
        bim::SIGNED => read_signed(payload, end, at)?,
        bim::ENUMERATION => read_choice(b, payload, end, at)?,
        bim::TEXT => return read_text(payload, end, at),
        bim::DATE_TIME | bim::DATE => return read_date(kind, payload, end, at),
        bim::FLOAT => Taken { value: fixed(payload, end, at, 32)?, bits: 32 },
        _ => unreachable!("the table check lets no other kind through"),
    };
    Ok(Value { word: taken.value, second: 0, bits: taken.bits, text: 0 })
}

/// A sign and a magnitude as a two's complement word. The limit (13) stands before minus zero (15).
#[inline]
fn read_signed(payload: &[u8], end: usize, at: usize) -> Result<Taken, u32> {
    let negative = fixed(payload, end, at, 1)? == 1;
    let magnitude = strict5(payload, end, at + 1)?;
    let most = if negative { 1 << 31 } else { (1 << 31) - 1 };
    if magnitude.value > most {
        return Err(bim::TOO_LARGE);
    }
    if negative && magnitude.value == 0 {
        return Err(bim::MINUS_ZERO);
    }
    Ok(Taken {
        value: if negative { magnitude.value.wrapping_neg() } else { magnitude.value },
        bits: 1 + magnitude.bits,
    })
}

/// The count is judged before a byte of the text is fetched.
#[inline]
fn read_text(payload: &[u8], end: usize, at: usize) -> Result<Value, u32> {
    let count = strict5(payload, end, at)?;
    if count.value > bim::MOST_TEXT {
        return Err(bim::TOO_LARGE);
    }
    let text = count.value as usize;
    let first = at + count.bits;
    if 8 * text > end - first {
        return Err(bim::PAST_END);
    }
    match utf8::check_at(payload, first, text) {
        0 => Ok(Value { word: count.value, second: 0, bits: count.bits + 8 * text, text }),
        fault => Err(fault),
    }
}

/// Whether a value of this kind has a second word.
#[inline]
pub fn is_date(kind: u32) -> bool {
    matches!(kind, bim::DATE_TIME | bim::DATE)
}

/// Days, and of a dateTime milliseconds behind them. All of their bits are fetched (5) before the clock is judged (14).
fn read_date(kind: u32, payload: &[u8], end: usize, at: usize) -> Result<Value, u32> {
    let days = fixed(payload, end, at, 32)?;
    let (ms, bits) = match kind {
        bim::DATE_TIME => (fixed(payload, end, at + 32, 32)?, 64),
        _ => (0, 32),
    };
    if ms >= bim::DAY_MS {
        return Err(bim::NO_SUCH_CODE);
    }
    let (word, second) = words_of_date(date_of(days), ms);
    Ok(Value { word, second, bits, text: 0 })
}

/// The two words of a date and its milliseconds. A year of a day has 24 bits.
pub fn words_of_date(date: Date, ms: u32) -> (u32, u32) {
    let Date { year, month, day } = date;
    ((year as u32) << bim::MONTH_BITS | month as u32, (day as u32) << bim::MS_BITS | ms)
}

/// The code of two words that are a date with a clock's milliseconds, which a date alone has none of.
fn write_date(kind: u32, word: u32, second: u32) -> Option<Code> {
    let low = |word: u32, bits: u32| word & ((1 << bits) - 1);
    let (year, month) = (word >> bim::MONTH_BITS, low(word, bim::MONTH_BITS));
    let (day, ms) = (second >> bim::MS_BITS, low(second, bim::MS_BITS));
    let days = Code::new(day_of(Date { year: year.into(), month: month.into(), day: day.into() })?, 32);
    match kind {
        bim::DATE_TIME => (ms < bim::DAY_MS).then(|| days.then(Code::new(ms, 32))),
        _ => (ms == 0).then_some(days),
    }
}

/// The code of a value's words, 20 where its row has no such value. The second counts of dates alone. A text's bytes follow its code.
#[inline]
pub fn write(kind: u32, b: u32, c: u32, word: u32, second: u32) -> Result<Code, u32> {
    let code = match kind {
        bim::BOOLEAN => write_choice(2, word),
        bim::RANGED => write_range(b as i32, c as i32, word),
        bim::UNSIGNED => Some(write5(word)),
        bim::SIGNED => {
            let negative = (word as i32) < 0;
            Some(Code::new(u32::from(negative), 1).then(write5((word as i32).unsigned_abs())))
        }
        bim::ENUMERATION => write_choice(b, word),
        bim::TEXT => (word <= bim::MOST_TEXT).then(|| write5(word)),
        bim::FLOAT => Some(Code::new(word, 32)),
        bim::DATE_TIME | bim::DATE => write_date(kind, word, second),
        _ => unreachable!("the table check lets no other kind through"),
    };
    code.ok_or(bim::OUTSIDE_ROW)
}
