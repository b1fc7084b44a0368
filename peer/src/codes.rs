//! The number codes of 001, 4.3, and those that the schema's rows make of them (001, 8.5.2 and 8.5.4).
//!
//! A refusal here is a bare number; who calls knows the item's place.

use crate::bim;
use crate::bits::{fixed, load64, Code};

/// A number as it was read.
#[derive(Clone, Copy, Debug, PartialEq, Eq)]
pub struct Reading {
    /// The number.
    pub value: u32,
    /// The bits it took.
    pub bits: usize,
    /// Whether no shorter code has this value.
    pub shortest: bool,
}

/// A value word or a number, and the bits it took.
#[derive(Clone, Copy, Debug, PartialEq, Eq)]
pub struct Taken {
    /// The word.
    pub value: u32,
    /// The bits.
    pub bits: usize,
}

/// The least w with 2^w at least `choices`; one choice takes no bits.
#[inline]
pub fn width(choices: u64) -> u32 {
    if choices <= 1 {
        return 0;
    }
    64 - (choices - 1).leading_zeros()
}

/// vluimsbf5: n-1 ones, a zero, n groups of 4 bits, n at most 8.
///
/// The prefix ends at its first 0 or at its eighth 1, which is 13 at once; a wall before that bit is 5.
#[inline]
pub fn read5(payload: &[u8], end: usize, at: usize) -> Result<Reading, u32> {
    let window = load64(payload, at);
    let room = end - at;
    let ones = window.leading_ones() as usize;
    if room <= ones.min(7) {
        return Err(bim::PAST_END);
    }
    if ones >= 8 {
        return Err(bim::TOO_LARGE);
    }
    let groups = ones + 1;
    let bits = 5 * groups;
    if room < bits {
        return Err(bim::PAST_END);
    }
    let value = ((window << groups) >> (64 - 4 * groups)) as u32;
    Ok(Reading { value, bits, shortest: groups == 1 || value >> (4 * (groups - 1)) != 0 })
}

/// vluimsbf8: bytes of 7 value bits, the top bit set when another follows; at most 2 bytes.
#[inline]
pub fn read8(payload: &[u8], end: usize, at: usize) -> Result<Reading, u32> {
    let first = fixed(payload, end, at, 8)?;
    if first < 0x80 {
        return Ok(Reading { value: first, bits: 8, shortest: true });
    }
    let second = fixed(payload, end, at + 8, 8)?;
    if second >= 0x80 {
        return Err(bim::TOO_LARGE);
    }
    let high = first & 0x7f;
    Ok(Reading { value: high << 7 | second, bits: 16, shortest: high != 0 })
}

/// Only the shortest form is taken; any other is 12.
#[inline]
fn strict(reading: Reading) -> Result<Taken, u32> {
    if !reading.shortest {
        return Err(bim::NOT_SHORTEST);
    }
    Ok(Taken { value: reading.value, bits: reading.bits })
}

/// vluimsbf5 in shortest form.
#[inline]
pub fn strict5(payload: &[u8], end: usize, at: usize) -> Result<Taken, u32> {
    strict(read5(payload, end, at)?)
}

/// vluimsbf8 in shortest form.
#[inline]
pub fn strict8(payload: &[u8], end: usize, at: usize) -> Result<Taken, u32> {
    strict(read8(payload, end, at)?)
}

/// The shortest vluimsbf5 of `value`.
#[inline]
pub fn write5(value: u32) -> Code {
    let groups = (32 - value.leading_zeros()).div_ceil(4).max(1);
    Code { bits: ((1 << groups) - 2) << (4 * groups) | u64::from(value), width: 5 * groups }
}

/// The shortest vluimsbf8 of `value`, where 2 bytes hold it.
#[inline]
pub fn write8(value: u32) -> Option<Code> {
    match value {
        0..=0x7f => Some(Code::new(value, 8)),
        0x80..=0x3fff => Some(Code::new(0x8000 | (value >> 7) << 8 | (value & 0x7f), 16)),
        _ => None,
    }
}

/// None or one of `choices`, counted from 1: a flag and, where it is 1, the code of the choice. No choices take no bits.
#[inline]
pub fn read_one_of(choices: u32, payload: &[u8], end: usize, at: usize) -> Result<Taken, u32> {
    if choices == 0 {
        return Ok(Taken { value: 0, bits: 0 });
    }
    if fixed(payload, end, at, 1)? == 0 {
        return Ok(Taken { value: 0, bits: 1 });
    }
    let code = read_choice(choices, payload, end, at + 1)?;
    Ok(Taken { value: code.value + 1, bits: code.bits + 1 })
}

/// The code of none, 0, or of one of `choices`, counted from 1.
#[inline]
pub fn write_one_of(choices: u32, which: u32) -> Option<Code> {
    match (choices, which) {
        (0, 0) => Some(Code::NONE),
        (_, 0) => Some(Code::new(0, 1)),
        _ => write_choice(choices, which - 1).map(|code| Code::new(1, 1).then(code)),
    }
}

/// A number below `choices` in their width; one that is not below is 14.
#[inline]
pub fn read_choice(choices: u32, payload: &[u8], end: usize, at: usize) -> Result<Taken, u32> {
    let width = width(u64::from(choices));
    let value = fixed(payload, end, at, width)?;
    if value >= choices {
        return Err(bim::NO_SUCH_CODE);
    }
    Ok(Taken { value, bits: width as usize })
}

/// The code of `value` among `choices`, where it is one of them.
#[inline]
pub fn write_choice(choices: u32, value: u32) -> Option<Code> {
    (value < choices).then(|| Code::new(value, width(u64::from(choices))))
}

/// c - b, which may need all 32 bits.
#[inline]
fn span(b: i32, c: i32) -> u32 {
    (i64::from(c) - i64::from(b)) as u32
}

/// A value from `b` to `c`, as a two's complement word: fixed width up to a span of 65,535, vluimsbf5 above it.
#[inline]
pub fn read_range(b: i32, c: i32, payload: &[u8], end: usize, at: usize) -> Result<Taken, u32> {
    let span = span(b, c);
    let taken = if span <= bim::MOST_FIXED {
        read_choice(span + 1, payload, end, at)?
    } else {
        let taken = strict5(payload, end, at)?;
        if taken.value > span {
            return Err(bim::TOO_LARGE);
        }
        taken
    };
    Ok(Taken { value: (i64::from(b) + i64::from(taken.value)) as i32 as u32, bits: taken.bits })
}

/// The code of the value word in the range `b` to `c`, where it lies there.
#[inline]
pub fn write_range(b: i32, c: i32, word: u32) -> Option<Code> {
    let value = word as i32;
    if value < b || value > c {
        return None;
    }
    let above = (i64::from(value) - i64::from(b)) as u32;
    let span = span(b, c);
    if span <= bim::MOST_FIXED {
        write_choice(span + 1, above)
    } else {
        Some(write5(above))
    }
}

/// Whether an occurs row begins with a shunt bit before its count (001, 8.5.2.2.5.2, case c-2).
#[inline]
fn has_shunt(least: u32, most: u32) -> bool {
    least == 0 && most > 1
}

/// The count of an occurs row: a shunt bit where none may occur and many may, then count minus least.
#[inline]
pub fn read_occurs(least: u32, most: u32, payload: &[u8], end: usize, at: usize) -> Result<Taken, u32> {
    let shunt = has_shunt(least, most);
    if shunt && fixed(payload, end, at, 1)? == 0 {
        return Ok(Taken { value: 0, bits: 1 });
    }
    let shunt_bits = usize::from(shunt);
    let taken = if most == bim::UNBOUNDED {
        let taken = strict5(payload, end, at + shunt_bits)?;
        if taken.value > bim::MOST_TIMES - least {
            return Err(bim::TOO_LARGE);
        }
        taken
    } else {
        read_choice(most - least + 1, payload, end, at + shunt_bits)?
    };
    // The shunt bit said "some": a count of 0 behind it names nothing.
    if shunt && taken.value == 0 {
        return Err(bim::NO_SUCH_CODE);
    }
    Ok(Taken { value: least + taken.value, bits: shunt_bits + taken.bits })
}

/// The code of `count` in an occurs row, where the row has it.
#[inline]
pub fn write_occurs(least: u32, most: u32, count: u32) -> Option<Code> {
    if count < least || count > most.min(bim::MOST_TIMES) {
        return None;
    }
    if has_shunt(least, most) && count == 0 {
        return Some(Code::new(0, 1));
    }
    let shunt = if has_shunt(least, most) { Code::new(1, 1) } else { Code::NONE };
    let number =
        if most == bim::UNBOUNDED { write5(count - least) } else { write_choice(most - least + 1, count - least)? };
    Some(shunt.then(number))
}
