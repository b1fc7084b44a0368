//! Seeded shelves, and damage to them: bytes, fields, blocks, cuts and swaps, with sums mended and not.

use super::file::{block, cut, mend, starts, write};
use super::record;
use crate::bim;
use crate::rng::Rng;

/// How many bytes a payload has: few, so many that it ends at or around a block's end, or any.
fn payload_bytes(rng: &mut Rng) -> usize {
    match rng.below(16) {
        0..=5 => rng.below(40),
        6..=8 => rng.within(480, 500),
        9..=11 => rng.below(700),
        12 => rng.within(1, 5) * bim::BLOCK_DATA - rng.below(14),
        13 => rng.below(3000),
        14 if rng.one_in(6) => rng.within(bim::MOST_PAYLOAD - 2, bim::MOST_PAYLOAD),
        _ => 0,
    }
}

/// A stream of records, the small ones more often.
pub fn any_stream(rng: &mut Rng) -> Vec<u8> {
    let records = rng.pick(&[0, 1, 1, 2, 3, 3, 5, 5, 8, 20]);
    let mut stream = vec![];
    for _ in 0..rng.within(records / 2, records) {
        let any = rng.word() as u8;
        let fill = rng.pick(&[0, 1, 0xff, any]);
        let mut payload = vec![fill; payload_bytes(rng)];
        if rng.one_in(2) {
            payload.iter_mut().for_each(|byte| *byte = rng.word() as u8);
        }
        stream.extend(record(rng.word() as u16, rng.below(3) as u16, &payload));
        // Now and then the next record begins where a block does, or a byte before.
        if rng.one_in(5) {
            let short = (bim::BLOCK_DATA - stream.len() % bim::BLOCK_DATA) % bim::BLOCK_DATA;
            let short = short.saturating_sub(rng.below(3));
            if short >= bim::RECORD_HEAD {
                stream.extend(record(7, 8, &vec![fill; short - bim::RECORD_HEAD]));
            }
        }
    }
    stream
}

/// A stream that is mostly none of records: cut off, with a length too large or one that is another, or any bytes.
pub fn odd_stream(rng: &mut Rng) -> Vec<u8> {
    let mut stream = any_stream(rng);
    match (rng.below(4), starts(&stream)) {
        (0, Ok(starts)) if !starts.is_empty() => {
            let at = rng.pick(&starts);
            let any = rng.word() as u16;
            let length = rng.pick(&[0, 1, 8191, 8192, 8193, 8194, 65_535, any]);
            stream[at..at + 2].copy_from_slice(&length.to_be_bytes());
        }
        (1, _) => stream.truncate(rng.below(stream.len() + 1)),
        (2, _) => stream.extend((0..rng.below(7)).map(|_| rng.word() as u8)),
        _ => {
            let most = rng.pick(&[9, 600, 1100]);
            let length = rng.below(most);
            let any = rng.word() as u8;
            stream = (0..length).map(|_| rng.pick(&[0, 0, 0, 1, 0x20, any])).collect();
        }
    }
    stream
}

/// The blocks of a stream, also of one that is none of records: up to the first fault as the writer would cut it.
pub fn cut_anyway(stream: &[u8]) -> Vec<u8> {
    match starts(stream) {
        Ok(starts) => cut(stream, &starts),
        Err(_) => {
            let (mut found, mut at) = (vec![], 0);
            while at < stream.len() {
                found.push(at);
                let high = usize::from(stream[at]);
                at += bim::RECORD_HEAD + (high << 8 | stream.get(at + 1).map_or(0, |&low| usize::from(low)));
            }
            cut(stream, &found)
        }
    }
}

/// The file of a seeded stream.
pub fn any_file(rng: &mut Rng) -> Vec<u8> {
    let stream = any_stream(rng);
    write(&stream).map_or(vec![], |(file, _)| file)
}

/// What was done to a file, counted by `Damage::ALL`.
#[derive(Clone, Copy, Debug, PartialEq, Eq)]
pub enum Damage {
    /// Bytes changed, the sum as it was.
    Bytes,
    /// A byte of data changed, and the sum mended.
    MendedByte,
    /// A field changed, and the sum mended.
    MendedField,
    /// A record's length changed, and the sum mended.
    MendedLength,
    /// A whole block replaced by junk, or by zeros.
    Junk,
    /// Blocks taken out.
    TakenOut,
    /// Blocks doubled, or one of another file put between, or before.
    PutIn,
    /// Blocks swapped, with their numbers and with numbers mended.
    Swapped,
    /// Numbers from some block on counted anew.
    Renumbered,
    /// Cut off, at a block's end or anywhere.
    Cut,
    /// Bytes put behind.
    Behind,
}

impl Damage {
    /// Every kind.
    pub const ALL: [Damage; 11] = [
        Damage::Bytes,
        Damage::MendedByte,
        Damage::MendedField,
        Damage::MendedLength,
        Damage::Junk,
        Damage::TakenOut,
        Damage::PutIn,
        Damage::Swapped,
        Damage::Renumbered,
        Damage::Cut,
        Damage::Behind,
    ];
}

/// Damages a file in one way.
pub fn damage(rng: &mut Rng, file: &mut Vec<u8>) -> Damage {
    let blocks = file.len() / bim::BLOCK_BYTES;
    let kind = match blocks {
        0 => rng.pick(&[Damage::PutIn, Damage::Behind]),
        _ => rng.pick(&Damage::ALL),
    };
    // The block that it befalls.
    let index = rng.below(blocks.max(1));
    let at = index * bim::BLOCK_BYTES;
    match kind {
        Damage::Bytes => {
            for _ in 0..rng.pick(&[1, 1, 1, 2, 9]) {
                let byte = at + rng.below(bim::BLOCK_BYTES);
                file[byte] ^= 1 << rng.below(8);
            }
        }
        Damage::MendedByte => {
            file[at + 8 + rng.below(bim::BLOCK_DATA)] ^= 1 << rng.below(8);
            mend(&mut file[at..at + bim::BLOCK_BYTES]);
        }
        Damage::MendedField => {
            change_field(rng, &mut file[at..at + bim::BLOCK_BYTES]);
            mend(&mut file[at..at + bim::BLOCK_BYTES]);
        }
        Damage::MendedLength => change_length(rng, file),
        Damage::Junk => {
            let zeros = rng.one_in(3);
            for byte in &mut file[at..at + bim::BLOCK_BYTES] {
                *byte = if zeros { 0 } else { rng.word() as u8 };
            }
        }
        Damage::TakenOut => {
            let gone = rng.within(1, 2.min(blocks - index));
            file.drain(at..at + gone * bim::BLOCK_BYTES);
        }
        Damage::PutIn => {
            let other = if rng.one_in(2) && blocks > 0 { file.clone() } else { any_file(rng) };
            let from = rng.below(other.len() / bim::BLOCK_BYTES + 1) * bim::BLOCK_BYTES;
            let to = (from + rng.within(1, 3) * bim::BLOCK_BYTES).min(other.len());
            let at = rng.below(blocks + 1) * bim::BLOCK_BYTES;
            file.splice(at..at, other[from..to].iter().copied());
        }
        Damage::Swapped => swap(rng, file, index),
        Damage::Renumbered => {
            let any = rng.word();
            let from = rng.pick(&[0, 1, index as u32, u32::MAX - 1, any]);
            for (block, number) in file[at..].chunks_exact_mut(bim::BLOCK_BYTES).zip(0..) {
                block[..4].copy_from_slice(&from.wrapping_add(number).to_be_bytes());
                mend(block);
            }
        }
        Damage::Cut if rng.one_in(2) => file.truncate(at),
        Damage::Cut => file.truncate(rng.below(file.len())),
        // An empty block, which no writer makes.
        Damage::Behind if rng.one_in(4) => file.extend(block(blocks as u32, bim::NO_START, &[])),
        Damage::Behind => {
            let most = rng.pick(&[1, 2, 600]);
            file.extend((0..rng.within(1, most)).map(|_| rng.below(2) as u8));
        }
    }
    kind
}

/// Number, used, first, or what has to be 0, in one block.
fn change_field(rng: &mut Rng, block: &mut [u8]) {
    let half = |block: &[u8], at: usize| u16::from_be_bytes([block[at], block[at + 1]]);
    let (used, first) = (half(block, 4), half(block, 6));
    let by_few = |rng: &mut Rng, word: u16| word.wrapping_add(rng.below(5) as u16).wrapping_sub(2);
    match rng.below(5) {
        0 => {
            let number = u32::from_be_bytes([block[0], block[1], block[2], block[3]]);
            let any = rng.word();
            let other = rng.pick(&[0, 9, number.wrapping_add(1), number.wrapping_sub(1), u32::MAX, any]);
            block[..4].copy_from_slice(&other.to_be_bytes());
        }
        1 => {
            let (near, any) = (by_few(rng, used), rng.below(498) as u16);
            let other = rng.pick(&[0, 1, 497, 498, 499, 504, 65_535, near, any]);
            block[4..6].copy_from_slice(&other.to_be_bytes());
            // What is no longer used has to be 0, or the block falls by that already.
            if rng.one_in(2) && other < 498 {
                block[8 + usize::from(other)..506].fill(0);
            }
        }
        2 | 3 => {
            let lengths = half(block, 8 + usize::from(first).min(490)).wrapping_add(6);
            let near = by_few(rng, first);
            let choices = [0, 65_535, 65_534, used, used.wrapping_sub(1), near, first.wrapping_add(lengths)];
            block[6..8].copy_from_slice(&rng.pick(&choices).to_be_bytes());
        }
        _ => {
            let low = 8 + usize::from(used).min(bim::BLOCK_DATA);
            let at = if low < 506 && rng.one_in(2) { rng.within(low, 507) } else { rng.within(506, 507) };
            block[at] = rng.pick(&[1, 0x80]);
        }
    }
}

/// Another length for a record, wherever its two bytes lie.
fn change_length(rng: &mut Rng, file: &mut [u8]) {
    let stream: Vec<u8> = file.chunks_exact(bim::BLOCK_BYTES).flat_map(|block| &block[8..506]).copied().collect();
    let (mut starts, mut at) = (vec![], 0);
    while at + 2 <= stream.len() {
        starts.push(at);
        at += bim::RECORD_HEAD + usize::from(u16::from_be_bytes([stream[at], stream[at + 1]]));
    }
    let start = rng.pick(&starts);
    let length = u16::from_be_bytes([stream[start], stream[start + 1]]);
    let any = rng.below(1000) as u16;
    let other = rng.pick(&[0, 8192, 8193, 65_535, length.wrapping_add(1), length.wrapping_sub(1), any]);
    for (at, byte) in (start..).zip(other.to_be_bytes()) {
        let block = at / bim::BLOCK_DATA * bim::BLOCK_BYTES;
        file[block + 8 + at % bim::BLOCK_DATA] = byte;
        mend(&mut file[block..block + bim::BLOCK_BYTES]);
    }
}

/// Two blocks change places; their numbers may stay where they were.
fn swap(rng: &mut Rng, file: &mut [u8], index: usize) {
    let other = rng.below(file.len() / bim::BLOCK_BYTES);
    let (one, other) = (index.min(other) * bim::BLOCK_BYTES, index.max(other) * bim::BLOCK_BYTES);
    if one == other {
        return;
    }
    let (front, back) = file.split_at_mut(other);
    let (one, other) = (&mut front[one..one + bim::BLOCK_BYTES], &mut back[..bim::BLOCK_BYTES]);
    one.swap_with_slice(other);
    if rng.one_in(2) {
        one[..4].swap_with_slice(&mut other[..4]);
        mend(one);
        mend(other);
    }
}
