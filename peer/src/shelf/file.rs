//! The writer and the reader of shelf files.

use crate::answer::{refusal, Refusal};
use crate::bim;

/// A whole block, field by field.
pub struct Block<'a> {
    bytes: &'a [u8],
}

impl<'a> Block<'a> {
    /// The block of these 512 bytes.
    pub fn of(bytes: &'a [u8]) -> Self {
        Block { bytes }
    }

    fn half(&self, at: usize) -> u16 {
        u16::from_be_bytes([self.bytes[at], self.bytes[at + 1]])
    }

    fn word(&self, at: usize) -> u32 {
        u32::from(self.half(at)) << 16 | u32::from(self.half(at + 2))
    }

    /// Its number.
    pub fn number(&self) -> u32 {
        self.word(0)
    }

    /// How many data bytes are used, as it says.
    pub fn used(&self) -> usize {
        usize::from(self.half(4))
    }

    /// Where its first record begins, as it says.
    pub fn first(&self) -> u16 {
        self.half(6)
    }

    /// Its used bytes; it has to stand alone.
    pub fn data(&self) -> &'a [u8] {
        &self.bytes[bim::BLOCK_HEAD..bim::BLOCK_HEAD + self.used()]
    }

    /// Whether its sum is right.
    pub fn sum_is_right(&self) -> bool {
        sum(self.bytes) == self.word(bim::BLOCK_BODY)
    }

    /// Whether the layout is one that a block can have by itself, all whole blocks but the last being full.
    pub fn stands_alone(&self, last: bool) -> bool {
        let used = self.used();
        let length_is_right = used == bim::BLOCK_DATA || last && (1..bim::BLOCK_DATA).contains(&used);
        let first_is_possible = match self.number() {
            0 => self.first() == 0,
            _ => self.first() == bim::NO_START || usize::from(self.first()) < used,
        };
        length_is_right
            && first_is_possible
            && self.bytes[bim::BLOCK_HEAD + used..bim::BLOCK_BODY].iter().all(|&byte| byte == 0)
    }
}

/// The sum of a block's first 127 words, wrapping.
pub fn sum(block: &[u8]) -> u32 {
    let words = block.chunks_exact(4).take(bim::BLOCK_WORDS);
    words.fold(0, |sum: u32, word| sum.wrapping_add(u32::from_be_bytes([word[0], word[1], word[2], word[3]])))
}

/// Where reading stands in a stream that grows block by block: the first record that is not known to its end.
pub struct Walk {
    /// Where that record begins.
    pub next: usize,
}

/// What reading on by one block found.
pub struct Step {
    /// The first record that begins in the block, counted from the block's data.
    pub first: u16,
    /// Where the records begin of which the length became known.
    pub begun: Vec<usize>,
}

impl Walk {
    /// Reads on, the stream's bytes from `base` on being a new block's; `Err` where a length becomes known that is over 8,192.
    pub fn read_on(&mut self, stream: &[u8], base: usize) -> Result<Step, ()> {
        let mut step = Step { first: bim::NO_START, begun: vec![] };
        while self.next < stream.len() {
            if self.next >= base && step.first == bim::NO_START {
                step.first = (self.next - base) as u16;
            }
            let Some(&[high, low]) = stream.get(self.next..self.next + 2) else {
                break;
            };
            let length = usize::from(u16::from_be_bytes([high, low]));
            if length > bim::MOST_PAYLOAD {
                return Err(());
            }
            step.begun.push(self.next);
            self.next += bim::RECORD_HEAD + length;
        }
        Ok(step)
    }
}

/// The stream of a file's records, and how many they are.
pub fn read(file: &[u8]) -> Result<(Vec<u8>, u64), Refusal> {
    let whole = file.len() / bim::BLOCK_BYTES;
    let (mut stream, mut records, mut walk) = (Vec::with_capacity(file.len()), 0, Walk { next: 0 });
    for (index, bytes) in file.chunks(bim::BLOCK_BYTES).enumerate() {
        let wrong = |number| Err(refusal(number, index));
        if bytes.len() < bim::BLOCK_BYTES {
            return wrong(bim::BLOCK_LAYOUT);
        }
        let block = Block::of(bytes);
        if !block.sum_is_right() {
            return wrong(bim::BLOCK_CHECK);
        }
        if block.number() as usize != index {
            return wrong(bim::BLOCK_TURN);
        }
        if !block.stands_alone(index + 1 == whole) {
            return wrong(bim::BLOCK_LAYOUT);
        }
        let base = stream.len();
        stream.extend(block.data());
        let Ok(step) = walk.read_on(&stream, base) else {
            return wrong(bim::BLOCK_LAYOUT);
        };
        let ends = block.used() < bim::BLOCK_DATA || (index + 1) * bim::BLOCK_BYTES == file.len();
        if step.first != block.first() || ends && walk.next != stream.len() {
            return wrong(bim::BLOCK_LAYOUT);
        }
        records += step.begun.len() as u64;
    }
    Ok((stream, records))
}

/// The file of a stream of records, and how many they are.
pub fn write(stream: &[u8]) -> Result<(Vec<u8>, u64), Refusal> {
    let starts = starts(stream)?;
    if stream.len().div_ceil(bim::BLOCK_DATA) as u64 > bim::MOST_BLOCKS {
        return Err(refusal(bim::PAYLOAD_ROOM, 0));
    }
    Ok((cut(stream, &starts), starts.len() as u64))
}

/// Where the records of a stream begin.
pub fn starts(stream: &[u8]) -> Result<Vec<usize>, Refusal> {
    let (mut starts, mut at) = (vec![], 0);
    while at < stream.len() {
        let length = stream.get(at..at + 2).map(|bytes| usize::from(bytes[0]) << 8 | usize::from(bytes[1]));
        if length.is_some_and(|length| length > bim::MOST_PAYLOAD) {
            return Err(refusal(bim::BLOCK_LAYOUT, (at + 1) / bim::BLOCK_DATA));
        }
        starts.push(at);
        at += length.map_or(bim::RECORD_HEAD, |length| bim::RECORD_HEAD + length);
    }
    match at == stream.len() {
        true => Ok(starts),
        false => Err(refusal(bim::BLOCK_LAYOUT, (stream.len() - 1) / bim::BLOCK_DATA)),
    }
}

/// The blocks of a stream whose records begin at these places.
pub fn cut(stream: &[u8], starts: &[usize]) -> Vec<u8> {
    let mut file = Vec::with_capacity(stream.len().div_ceil(bim::BLOCK_DATA) * bim::BLOCK_BYTES);
    let mut starts = starts.iter().copied().peekable();
    for (number, data) in stream.chunks(bim::BLOCK_DATA).enumerate() {
        let (from, to) = (number * bim::BLOCK_DATA, number * bim::BLOCK_DATA + data.len());
        let first = starts.peek().filter(|&&start| start < to).map_or(bim::NO_START, |&start| (start - from) as u16);
        while starts.next_if(|&start| start < to).is_some() {}
        file.extend(block(number as u32, first, data));
    }
    file
}

/// A block of these fields, its sum right.
pub fn block(number: u32, first: u16, data: &[u8]) -> Vec<u8> {
    let mut block = vec![0; bim::BLOCK_BYTES];
    block[..4].copy_from_slice(&number.to_be_bytes());
    block[4..6].copy_from_slice(&(data.len() as u16).to_be_bytes());
    block[6..8].copy_from_slice(&first.to_be_bytes());
    block[bim::BLOCK_HEAD..bim::BLOCK_HEAD + data.len()].copy_from_slice(data);
    mend(&mut block);
    block
}

/// Makes a block's sum right again.
pub fn mend(block: &mut [u8]) {
    let sum = sum(block);
    block[bim::BLOCK_BODY..].copy_from_slice(&sum.to_be_bytes());
}
