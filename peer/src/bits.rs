//! Bits of a payload below a wall, and bits put into a buffer. Bits run from the most significant bit of each byte.
//!
//! Everywhere a place is a bit from the payload's start, `end` is the wall, and `at <= end <= 8 * payload.len()`.

use crate::bim;

/// The 64 bits from `at` on, with zeros past the last byte. One wide load serves every field but a text.
#[inline]
pub fn load64(payload: &[u8], at: usize) -> u64 {
    let first = at / 8;
    let shift = at % 8;
    let mut padded = [0; 9];
    let window = match payload.get(first..first + 9) {
        Some(window) => window,
        None => {
            let tail = payload.get(first..).unwrap_or(&[]);
            padded[..tail.len()].copy_from_slice(tail);
            &padded[..]
        }
    };
    let (head, last) = window.split_at(8);
    let mut word = [0; 8];
    word.copy_from_slice(head);
    // An aligned place takes nothing of the ninth byte: its 8 bits are shifted out.
    (u64::from_be_bytes(word) << shift) | (u64::from(last[0]) >> (8 - shift))
}

/// The next `width` bits, 0 to 32 of them, as a number; 5 where they pass the wall.
#[inline]
pub fn fixed(payload: &[u8], end: usize, at: usize, width: u32) -> Result<u32, u32> {
    debug_assert!(width <= 32);
    if width as usize > end - at {
        return Err(bim::PAST_END);
    }
    if width == 0 {
        return Ok(0);
    }
    Ok((load64(payload, at) >> (64 - width)) as u32)
}

/// Copies the bytes that begin at bit `at`, aligned or not, over all of `target`.
#[inline]
pub fn copy_bytes(payload: &[u8], at: usize, target: &mut [u8]) {
    let first = at / 8;
    let shift = at % 8;
    if shift == 0 {
        target.copy_from_slice(&payload[first..first + target.len()]);
        return;
    }
    let source = &payload[first..first + target.len() + 1];
    for (byte, pair) in target.iter_mut().zip(source.windows(2)) {
        *byte = (pair[0] << shift) | (pair[1] >> (8 - shift));
    }
}

/// Puts a byte over the eight bits from `at` on, aligned or not.
pub fn put_byte(payload: &mut [u8], at: usize, byte: u8) {
    for bit in 0..8 {
        let (place, mask) = ((at + bit) / 8, 0x80 >> ((at + bit) % 8));
        match byte >> (7 - bit) & 1 {
            0 => payload[place] &= !mask,
            _ => payload[place] |= mask,
        }
    }
}

/// Puts a word over the 32 bits from `at` on.
pub fn put_word(payload: &mut [u8], at: usize, word: u32) {
    word.to_be_bytes().into_iter().enumerate().for_each(|(index, byte)| put_byte(payload, at + 8 * index, byte));
}

/// Bits not yet in a payload: the low `width` bits of `bits`, most significant first. No code but a dateTime's 64 takes more than 41.
#[derive(Clone, Copy, Debug, PartialEq, Eq)]
pub struct Code {
    /// The bits; those above `width` are 0.
    pub bits: u64,
    /// How many.
    pub width: u32,
}

impl Code {
    /// A code of no bits.
    pub const NONE: Code = Code { bits: 0, width: 0 };

    /// `value` in `width` bits.
    pub fn new(value: u32, width: u32) -> Self {
        debug_assert!(width <= 32 && u64::from(value) >> width == 0);
        Code { bits: u64::from(value), width }
    }

    /// This code, then `next`.
    pub fn then(self, next: Code) -> Self {
        debug_assert!(self.width + next.width <= 64 && next.width < 64);
        Code { bits: (self.bits << next.width) | next.bits, width: self.width + next.width }
    }
}

/// Puts codes one behind the other into a lent buffer, which must have the room.
pub struct BitWriter<'a> {
    out: &'a mut [u8],
    next: usize,
    waiting: u64,
    count: u32,
}

impl<'a> BitWriter<'a> {
    /// Begins at the first bit of `out`.
    pub fn new(out: &'a mut [u8]) -> Self {
        BitWriter { out, next: 0, waiting: 0, count: 0 }
    }

    /// Appends a code. Fewer than 8 bits wait between calls, so that 64 hold them and 56 more: a longer code is put in two parts.
    #[inline]
    pub fn put(&mut self, code: Code) {
        if code.width > 56 {
            self.put(Code { bits: code.bits >> 32, width: code.width - 32 });
            return self.put(Code { bits: code.bits & u64::from(u32::MAX), width: 32 });
        }
        self.waiting = (self.waiting << code.width) | code.bits;
        self.count += code.width;
        while self.count >= 8 {
            self.count -= 8;
            self.out[self.next] = (self.waiting >> self.count) as u8;
            self.next += 1;
        }
    }

    /// Appends whole bytes.
    #[inline]
    pub fn put_bytes(&mut self, bytes: &[u8]) {
        let Some((&first, &last)) = bytes.first().zip(bytes.last()) else {
            return;
        };
        let target = &mut self.out[self.next..self.next + bytes.len()];
        self.next += bytes.len();
        let shift = self.count;
        if shift == 0 {
            target.copy_from_slice(bytes);
            return;
        }
        // Each byte is cut in two; the waiting bits come before the first, and the last one's tail waits.
        target[0] = ((self.waiting << (8 - shift)) as u8) | (first >> shift);
        for (byte, pair) in target[1..].iter_mut().zip(bytes.windows(2)) {
            *byte = (pair[0] << (8 - shift)) | (pair[1] >> shift);
        }
        self.waiting = u64::from(last);
    }

    /// Ends the last byte with zeros and gives the number of bytes.
    pub fn finish(mut self) -> usize {
        if self.count > 0 {
            self.put(Code::new(0, 8 - self.count));
        }
        self.next
    }
}
