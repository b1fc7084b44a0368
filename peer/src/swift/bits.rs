//! Wide loads from a payload, texts moved by words, and codes put out by words.

use crate::bim;
const ALL_TOP_BITS: u64 = 0x8080_8080_8080_8080;

/// The bits from `at` on, the first 57 of them sure; zeros past the last byte.
#[inline(always)]
pub fn window(payload: &[u8], at: usize) -> u64 {
    let first = at / 8;
    let word = match payload.get(first..first + 8) {
        Some(bytes) => u64::from_be_bytes(bytes.try_into().unwrap()),
        None => last_bytes(payload, first),
    };
    word << (at % 8)
}

/// Fewer than 8 bytes from `first` on, and zeros.
#[inline(never)]
fn last_bytes(payload: &[u8], first: usize) -> u64 {
    if first >= payload.len() {
        return 0;
    }
    match payload.last_chunk::<8>() {
        Some(last) => u64::from_be_bytes(*last) << (8 * (8 - (payload.len() - first))),
        None => {
            payload[first..].iter().enumerate().fold(0, |word, (at, &byte)| word | u64::from(byte) << (56 - 8 * at))
        }
    }
}

/// The first `width` bits of a window, 0 to 32.
#[inline(always)]
pub fn front(window: u64, width: u32) -> u32 {
    ((window >> 1) >> (63 - width)) as u32
}

/// The width of `most + 1` choices.
#[inline(always)]
pub fn width(most: u32) -> u32 {
    32 - most.leading_zeros()
}

/// A vluimsbf5 of any number of groups at the front of a window, `room` bits before the wall: value and groups.
#[inline(always)]
pub fn any_five(window: u64, room: usize) -> Result<(u32, usize), u32> {
    let ones = window.leading_ones() as usize;
    if ones >= 8 {
        return Err(if room < 8 { bim::PAST_END } else { bim::TOO_LARGE });
    }
    let groups = ones + 1;
    if room < 5 * groups {
        return Err(bim::PAST_END);
    }
    Ok((((window << groups) >> (64 - 4 * groups)) as u32, groups))
}

/// A vluimsbf5 in shortest form: value and bits.
#[inline(always)]
pub fn five(window: u64, room: usize) -> Result<(u32, usize), u32> {
    let (value, groups) = any_five(window, room)?;
    if groups > 1 && value >> (4 * (groups - 1)) == 0 {
        return Err(bim::NOT_SHORTEST);
    }
    Ok((value, 5 * groups))
}

/// What is wrong with a text: 0, 16 or 25.
#[inline(always)]
pub fn text_fault(text: &[u8]) -> u32 {
    if std::str::from_utf8(text).is_err() {
        return bim::NOT_UTF8;
    }
    control_fault(text)
}

/// 25 where a control character is among these bytes: one pass without a branch, so that many bytes are looked at at once.
#[inline(always)]
fn control_fault(text: &[u8]) -> u32 {
    let control = |byte: u8| (byte < 32) & (byte != 9) & (byte != 10) & (byte != 13);
    let met = text.iter().fold(0, |met, &byte| met | u8::from(control(byte)));
    u32::from(met) * bim::CONTROL
}

/// Copies the text that begins at bit `at` over all of `target`, and tells what is wrong with it.
#[inline(always)]
pub fn copy_text(payload: &[u8], at: usize, target: &mut [u8]) -> u32 {
    let first = at / 8;
    let shift = at % 8;
    if shift == 0 {
        target.copy_from_slice(&payload[first..first + target.len()]);
        return text_fault(target);
    }
    let source = &payload[first..first + target.len() + 1];
    let (words, last) = target.as_chunks_mut::<8>();
    let mut tops = 0;
    for (word, (eight, ninth)) in
        words.iter_mut().zip(source.as_chunks::<8>().0.iter().zip(source[8.min(source.len())..].iter().step_by(8)))
    {
        let moved = u64::from_be_bytes(*eight) << shift | u64::from(*ninth) >> (8 - shift);
        tops |= moved;
        *word = moved.to_be_bytes();
    }
    for (byte, pair) in last.iter_mut().zip(source[8 * words.len()..].windows(2)) {
        *byte = pair[0] << shift | pair[1] >> (8 - shift);
        tops |= u64::from(*byte);
    }
    if tops & ALL_TOP_BITS == 0 {
        control_fault(target)
    } else {
        text_fault(target)
    }
}

/// The shortest vluimsbf5 of `value`: bits and width.
#[inline(always)]
pub fn code5(value: u32) -> (u64, u32) {
    let groups = (35 - (value | 1).leading_zeros()) / 4;
    (((1 << groups) - 2) << (4 * groups) | u64::from(value), 5 * groups)
}

/// Puts codes one behind the other into a buffer that is as long as they are together.
pub struct Pen<'a> {
    out: &'a mut [u8],
    next: usize,
    /// The low `count` bits wait; what is above them is of no account.
    waiting: u64,
    count: u32,
}

impl<'a> Pen<'a> {
    /// Begins with a first byte.
    pub fn new(out: &'a mut [u8], first: u8) -> Self {
        Pen { out, next: 0, waiting: u64::from(first), count: 8 }
    }

    #[inline(always)]
    fn word(&mut self, word: u64) {
        self.out[self.next..self.next + 8].copy_from_slice(&word.to_be_bytes());
        self.next += 8;
    }

    /// The low `width` bits of `bits`, fewer than 64.
    #[inline(always)]
    pub fn put(&mut self, bits: u64, width: u32) {
        let free = 64 - self.count;
        if width < free {
            self.waiting = self.waiting << width | bits;
            self.count += width;
        } else {
            let rest = width - free;
            self.word(self.waiting << free | bits >> rest);
            self.waiting = bits;
            self.count = rest;
        }
    }

    /// A text.
    #[inline(always)]
    pub fn put_text(&mut self, text: &[u8]) {
        let (words, last) = text.as_chunks::<8>();
        let count = self.count;
        if count == 0 {
            self.out[self.next..self.next + 8 * words.len()].copy_from_slice(words.as_flattened());
            self.next += 8 * words.len();
        } else {
            let mut waiting = self.waiting;
            let target = &mut self.out[self.next..self.next + 8 * words.len()];
            for (eight, word) in target.as_chunks_mut::<8>().0.iter_mut().zip(words) {
                let word = u64::from_be_bytes(*word);
                *eight = (waiting << (64 - count) | word >> count).to_be_bytes();
                waiting = word;
            }
            self.next += 8 * words.len();
            self.waiting = waiting;
        }
        for &byte in last {
            self.put(u64::from(byte), 8);
        }
    }

    /// What still waits, and zeros to the end of the last byte.
    pub fn finish(self) {
        if self.count > 0 {
            let word = (self.waiting << (64 - self.count)).to_be_bytes();
            let rest = &mut self.out[self.next..];
            let bytes = rest.len();
            rest.copy_from_slice(&word[..bytes]);
        }
    }
}
