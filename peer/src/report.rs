//! Where the bits go, byte for byte at the C boundary: a report that the caller keeps, and a payload counted into it.
//!
//! The lines are found by a map of their names and the owner of an event by a stack. The sums are made in 128 bits beside the report, which
//! changes only where every one of them still fits.

use crate::bim;
use crate::host;
use crate::words::words_of;
use std::collections::HashMap;

/// Whether the report has stopped: 0 or not.
pub const STOPPED: usize = 0;
/// 8 times the bytes of the accepted payloads.
pub const TOTAL: usize = 1;
/// The bits of their mode bytes.
pub const MODE: usize = 2;
/// The bits of their padding.
pub const PADDING: usize = 3;
/// How many payloads were answered 0; those answered k are counted k further on.
pub const ANSWERED: usize = 4;
/// The line of all names that have none of their own.
pub const OTHER: usize = 68;
/// The first line.
pub const FIRST_LINE: usize = 72;
/// The numbers of a line: name, seen, own, blanked.
pub const LINE: usize = 4;

/// The numbers of a report's bytes.
pub fn numbers_of(report: &[u8]) -> Vec<u64> {
    report.chunks_exact(8).map(|bytes| bytes.iter().fold(0, |number, &byte| number << 8 | u64::from(byte))).collect()
}

/// The bytes of a report's numbers.
pub fn bytes_of(numbers: &[u64]) -> Vec<u8> {
    numbers.iter().flat_map(|number| number.to_be_bytes()).collect()
}

/// Counts a payload into `report`; answers what the reading answers, or 24 for a report of another size.
pub fn add(table: &[u8], party: u32, root_name: u32, root_type: u32, payload: &[u8], report: &mut [u8]) -> u32 {
    if report.len() != bim::REPORT {
        report.fill(0);
        return bim::AREA_SIZE;
    }
    let (mut events, mut texts) = (vec![0; bim::MOST_EVENTS * bim::EVENT], vec![0; bim::MOST_PAYLOAD]);
    let mut area = [0; bim::AREA];
    let number = host::read(table, party, root_name, root_type, payload, &mut events, &mut texts, &mut area);
    let before = numbers_of(report);
    if before[STOPPED] != 0 {
        return number;
    }
    let mut sums: Vec<u128> = before.iter().map(|&number| number.into()).collect();
    sums[ANSWERED + number as usize] += 1;
    if number == bim::ACCEPTED {
        let [_, _, count, _, used, _] = words_of(&area[..24])[..] else { unreachable!("six words") };
        let all = 8 * payload.len() as u128;
        sums[TOTAL] += all;
        sums[MODE] += 8;
        sums[PADDING] += all - u128::from(used);
        count_events(&mut sums, words_of(&events).chunks_exact(bim::EVENT_WORDS).take(count as usize));
    }
    let after: Option<Vec<u64>> = sums.into_iter().map(|sum| sum.try_into().ok()).collect();
    let after = after.unwrap_or_else(|| {
        let mut stopped = before;
        stopped[STOPPED] = 1;
        stopped
    });
    report.copy_from_slice(&bytes_of(&after));
    number
}

/// Gives each event's bits to its owner's line.
fn count_events<'a>(sums: &mut [u128], events: impl Iterator<Item = &'a [u32]>) {
    let mut lines = Lines::of(sums);
    // The lines of the elements open, the innermost last.
    let mut open = vec![];
    for event in events {
        let (kind, name, bits) = (event[0], event[1], u128::from(event[3]));
        match kind {
            bim::KIND_START => {
                let line = lines.find(sums, name);
                open.push(line);
                sums[line + 1] += 1;
                sums[line + 2] += bits;
            }
            bim::KIND_BLANK => {
                let line = lines.find(sums, name);
                sums[line + 1] += 1;
                sums[line + 3] += bits;
            }
            _ => {
                if let Some(line) = open.last() {
                    sums[line + 2] += bits;
                }
                if kind == bim::KIND_END {
                    open.pop();
                }
            }
        }
    }
}

/// The lines up to the first that is free, by name: the first of each.
struct Lines {
    at: HashMap<u128, usize>,
    /// The first free line, or where the lines end.
    free: usize,
}

impl Lines {
    const END: usize = FIRST_LINE + LINE * bim::REPORT_LINES;

    fn of(sums: &[u128]) -> Self {
        let mut lines = Lines { at: HashMap::new(), free: FIRST_LINE };
        lines.step_over_taken(sums);
        lines
    }

    /// Takes up the lines that are not free, from `free` on.
    fn step_over_taken(&mut self, sums: &[u128]) {
        while self.free < Self::END && sums[self.free + 1] != 0 {
            self.at.entry(sums[self.free]).or_insert(self.free);
            self.free += LINE;
        }
    }

    /// Where the line of this name begins; a free one becomes it, and with none left it is *other*.
    fn find(&mut self, sums: &mut [u128], name: u32) -> usize {
        if let Some(&line) = self.at.get(&name.into()) {
            return line;
        }
        if self.free == Self::END {
            return OTHER;
        }
        let line = self.free;
        sums[line] = name.into();
        self.at.insert(name.into(), line);
        self.free += LINE;
        self.step_over_taken(sums);
        line
    }
}
