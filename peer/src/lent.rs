//! The lent bit reader at the C boundary, byte for byte: one code of bytes from a place on; the answer is a number and an
//! area of three words, value, place and bits left.

use crate::bim;
use crate::bits::fixed;
use crate::codes::{strict5, strict8, Taken};

/// How a number is coded.
#[derive(Clone, Copy, Debug, PartialEq, Eq)]
pub enum Coding {
    /// In so many bits.
    Fixed(u32),
    /// As a vluimsbf5.
    Five,
    /// As a vluimsbf8 of at most two bytes.
    Eight,
}

/// The bits that can be fetched: those of the bytes, but a place stops at 2^32 - 1.
fn wall(bytes: &[u8]) -> usize {
    (8 * bytes.len()).min(bim::MOST_WORD as usize)
}

/// How many bits there are from `place` on.
pub fn left(bytes: &[u8], place: u32) -> u32 {
    wall(bytes).saturating_sub(place as usize) as u32
}

/// Reads the code at `place`; a refused one leaves the place where it is.
pub fn read(bytes: &[u8], place: u32, coding: Coding, area: &mut [u8]) -> u32 {
    if area.len() != bim::BITS_AREA {
        area.fill(0);
        return bim::AREA_SIZE;
    }
    let (number, value, next) = match code(bytes, place as usize, coding) {
        Ok(taken) => (bim::ACCEPTED, taken.value, place + taken.bits as u32),
        Err(number) => (number, 0, place),
    };
    for (target, word) in area.chunks_exact_mut(4).zip([value, next, left(bytes, next)]) {
        target.copy_from_slice(&word.to_be_bytes());
    }
    number
}

fn code(bytes: &[u8], at: usize, coding: Coding) -> Result<Taken, u32> {
    let end = wall(bytes);
    match coding {
        // No word holds it, wherever it stands.
        Coding::Fixed(width) if width > 32 => Err(bim::TOO_LARGE),
        _ if at > end => Err(bim::PAST_END),
        Coding::Fixed(width) => fixed(bytes, end, at, width).map(|value| Taken { value, bits: width as usize }),
        Coding::Five => strict5(bytes, end, at),
        Coding::Eight => strict8(bytes, end, at),
    }
}
