//! The pages once more, as a definition over whole files, and with no code of the judge's. A block is judged by all of the run that it would
//! lengthen, from the run's first block on and anew for each: the bytes of the run are laid one behind the other, its records are
//! read from its first named start, and what is asked of the block is asked of these. It takes quadratic time, and small files.

use super::rescue::{Entry, Salvage};
use crate::answer::{refusal, Refusal};

/// A big-endian number, byte by byte.
fn number(bytes: &[u8]) -> u64 {
    bytes.iter().fold(0, |number, &byte| 256 * number + u64::from(byte))
}

/// The words of a block added up as numbers without end, and then modulo 2^32.
fn sum(block: &[u8]) -> u64 {
    let weights = [1 << 24, 1 << 16, 1 << 8, 1];
    (0..508).map(|at| u64::from(block[at]) * weights[at % 4]).sum::<u64>() % (1 << 32)
}

/// The used bytes of blocks, one behind the other.
fn laid_out(blocks: &[&[u8]]) -> Vec<u8> {
    blocks.iter().flat_map(|block| &block[8..8 + number(&block[4..6]) as usize]).copied().collect()
}

/// The first start that a run of blocks names.
fn named_start(blocks: &[&[u8]]) -> Option<usize> {
    let named = blocks.iter().position(|block| number(&block[6..8]) != 65_535)?;
    Some(498 * named + number(&blocks[named][6..8]) as usize)
}

/// Where the records begin that are read from `start` on, and then where the next one would; `None` where a length is over 8,192.
fn starts_from(start: usize, run: &[u8]) -> Option<Vec<usize>> {
    let mut starts = vec![start];
    while let Some(length) = starts.last().and_then(|&at| run.get(at..at + 2)) {
        if number(length) > 8192 {
            return None;
        }
        starts.push(starts[starts.len() - 1] + 6 + number(length) as usize);
    }
    Some(starts)
}

/// What is at fault with the last block of a run whose other blocks are good; `behind` bytes follow it in the file.
fn fault(blocks: &[&[u8]], behind: usize) -> u32 {
    let (last, before) = match blocks.split_last() {
        Some((last, _)) if last.len() < 512 => return 33,
        Some((last, before)) => (*last, before),
        None => return 0,
    };
    if sum(last) != number(&last[508..]) {
        return 31;
    }
    let numbers = before.last().map(|block| number(&block[..4]) + 1);
    if numbers.is_some_and(|due| due != number(&last[..4])) {
        return 32;
    }
    let (used, first) = (number(&last[4..6]), number(&last[6..8]));
    let full_or_last = used == 498 || (1..498).contains(&used) && behind < 512;
    let first_in_range = first == 65_535 || first < used;
    if !full_or_last || !first_in_range || number(&last[..4]) == 0 && first != 0 {
        return 33;
    }
    if last[8 + used as usize..508].iter().any(|&byte| byte != 0) {
        return 33;
    }
    let run = laid_out(blocks);
    let Some(start) = named_start(blocks) else {
        return 0;
    };
    let Some(starts) = starts_from(start, &run) else {
        return 33;
    };
    let base = 498 * before.len();
    let begins = starts.iter().find(|&&start| (base..run.len()).contains(&start));
    if begins.map_or(65_535, |start| start - base) as u64 != first {
        return 33;
    }
    let ends = starts.contains(&run.len());
    if (used < 498 || behind == 0) && !ends {
        return 33;
    }
    0
}

fn blocks_of(file: &[u8]) -> Vec<&[u8]> {
    file.chunks(512).collect()
}

/// What follows block `index` of a file.
fn behind(file: &[u8], index: usize) -> usize {
    file.len().saturating_sub(512 * (index + 1))
}

/// Where reading is refused, if it is: the first block that is not the next of one run from number 0 on.
pub fn refused(file: &[u8]) -> Option<Refusal> {
    let blocks = blocks_of(file);
    (0..blocks.len()).find_map(|index| {
        let block = blocks[index];
        let sum_is_right = block.len() == 512 && sum(block) == number(&block[508..]);
        let reason = match sum_is_right && number(&block[..4]) != index as u64 {
            true => 32,
            false => fault(&blocks[..=index], behind(file, index)),
        };
        (reason != 0).then(|| refusal(reason, index))
    })
}

/// The records of a file that is not refused: its used bytes.
pub fn records(file: &[u8]) -> Vec<u8> {
    laid_out(&blocks_of(file))
}

/// The reasons of a file's blocks, 0 for a good one, and its stretches: from which block to which.
fn stretches(file: &[u8]) -> (Vec<u32>, Vec<(usize, usize)>) {
    let blocks = blocks_of(file);
    let (mut reasons, mut stretches, mut from) = (vec![], vec![], 0);
    for index in 0..=blocks.len() {
        let reason = match index < blocks.len() {
            true => fault(&blocks[from..=index], behind(file, index)),
            false => u32::MAX,
        };
        if reason != 0 {
            if from < index {
                stretches.push((from, index));
            }
            from = index + 1;
        }
        reasons.push(reason);
    }
    reasons.pop();
    (reasons, stretches)
}

/// The salvage of a file: of each stretch the records from its first named start that end in it.
pub fn salvage(file: &[u8]) -> Salvage {
    let blocks = blocks_of(file);
    let (reasons, stretches) = stretches(file);
    let mut salvage = Salvage { records: 0, stream: vec![], entries: vec![] };
    let mut lost = vec![0; blocks.len()];
    for (from, to) in stretches {
        let stretch = &blocks[from..to];
        let run = laid_out(stretch);
        let starts = named_start(stretch).and_then(|start| starts_from(start, &run)).unwrap_or_default();
        let whole: Vec<_> = starts.iter().filter(|&&start| start <= run.len()).collect();
        let (begin, end) = match (whole.first(), whole.last()) {
            (Some(&&begin), Some(&&end)) => (begin, end),
            _ => (run.len(), run.len()),
        };
        salvage.records += whole.len().saturating_sub(1) as u64;
        salvage.stream.extend(&run[begin..end]);
        for place in (0..begin).chain(end..run.len()) {
            lost[from + place / 498] += 1;
        }
    }
    for (index, (&reason, &bytes)) in reasons.iter().zip(&lost).enumerate() {
        if reason != 0 || bytes > 0 {
            salvage.entries.push(Entry { block: index as u32, reason, bytes });
        }
    }
    salvage
}
