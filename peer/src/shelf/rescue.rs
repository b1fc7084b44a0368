//! The salvage of a damaged file, block by block. Every used byte of a good block is marked where a kept record holds it, and the list is counted
//! from the marks.

use super::file::{Block, Walk};
use crate::bim;
use crate::host::place_word;

/// What is kept, and the list of what is not.
#[derive(Debug, PartialEq, Eq)]
pub struct Salvage {
    /// How many records are kept.
    pub records: u64,
    /// The stream of the kept records.
    pub stream: Vec<u8>,
    /// The list.
    pub entries: Vec<Entry>,
}

/// An entry of the list.
#[derive(Clone, Copy, Debug, PartialEq, Eq)]
pub struct Entry {
    /// The block's index in the file.
    pub block: u32,
    /// 31, 32 or 33; 0 for a good block.
    pub reason: u32,
    /// How many used bytes of a good block no kept record holds.
    pub bytes: u32,
}

impl Entry {
    /// As it stands in the list.
    pub fn bytes(&self) -> Vec<u8> {
        [self.block, self.reason, self.bytes].iter().flat_map(|word| word.to_be_bytes()).collect()
    }
}

/// The used bytes of the good blocks so far, and how reading goes on.
#[derive(Default)]
struct Rescue {
    used: Vec<u8>,
    /// The number of the block before, where that is good.
    before: Option<u32>,
    /// A record start is known, and the blocks since then are good.
    walk: Option<Walk>,
    /// Where records begin that go on past the last good block.
    running: Vec<usize>,
    /// The whole records, from where to where among the used bytes.
    kept: Vec<(usize, usize)>,
}

impl Rescue {
    /// Judges a block: 0, or why it is bad. `last` is the last whole block, which something may follow.
    fn judge(&mut self, bytes: &[u8], last: bool, follows: bool) -> u32 {
        if bytes.len() < bim::BLOCK_BYTES {
            return bim::BLOCK_LAYOUT;
        }
        let block = Block::of(bytes);
        if !block.sum_is_right() {
            return bim::BLOCK_CHECK;
        }
        if self.before.is_some_and(|number| number.checked_add(1) != Some(block.number())) {
            return bim::BLOCK_TURN;
        }
        if !block.stands_alone(last) {
            return bim::BLOCK_LAYOUT;
        }
        let base = self.used.len();
        let taken_up = (block.first() != bim::NO_START).then(|| Walk { next: base + usize::from(block.first()) });
        self.used.extend(block.data());
        if let Some(mut walk) = self.walk.take().or(taken_up) {
            let ends = block.used() < bim::BLOCK_DATA || !follows;
            match walk.read_on(&self.used, base) {
                Ok(step) if step.first == block.first() && !(ends && walk.next != self.used.len()) => {
                    self.running.extend(step.begun);
                    self.keep(walk.next);
                    self.walk = Some(walk);
                }
                _ => return bim::BLOCK_LAYOUT,
            }
        }
        self.before = Some(block.number());
        bim::ACCEPTED
    }

    /// Keeps the records that are whole by now; the one that ends at `next` may not be.
    fn keep(&mut self, next: usize) {
        let starts = std::mem::take(&mut self.running);
        for (index, &start) in starts.iter().enumerate() {
            let end = starts.get(index + 1).copied().unwrap_or(next);
            if end <= self.used.len() {
                self.kept.push((start, end));
            } else {
                self.running.push(start);
            }
        }
    }
}

/// The salvage of a file.
pub fn salvage(file: &[u8]) -> Salvage {
    let whole = file.len() / bim::BLOCK_BYTES;
    let mut rescue = Rescue::default();
    let mut judged = vec![];
    for (index, bytes) in file.chunks(bim::BLOCK_BYTES).enumerate() {
        let base = rescue.used.len();
        let reason = rescue.judge(bytes, index + 1 == whole, (index + 1) * bim::BLOCK_BYTES < file.len());
        if reason != bim::ACCEPTED {
            // Nothing of a bad block is used, and what was running over into it is lost.
            rescue.used.truncate(base);
            (rescue.before, rescue.walk) = (None, None);
            rescue.running.clear();
        }
        judged.push((place_word(index as u64), reason, base..rescue.used.len()));
    }
    let mut held = vec![false; rescue.used.len()];
    rescue.kept.iter().for_each(|&(start, end)| held[start..end].fill(true));
    let entries = judged.into_iter().filter_map(|(block, reason, used)| {
        let bytes = held[used].iter().filter(|held| !**held).count() as u32;
        (reason != bim::ACCEPTED || bytes > 0).then_some(Entry { block, reason, bytes })
    });
    let stream = rescue.kept.iter().flat_map(|&(start, end)| &rescue.used[start..end]).copied().collect();
    Salvage { records: rescue.kept.len() as u64, entries: entries.collect(), stream }
}
