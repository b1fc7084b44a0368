//! The vectors of examples/shelves.txt: a call for shelves in words, and its answer. examples/README.md has their form.

use super::damage::cut_anyway;
use super::file::mend;
use super::laws::{Call, Said};
use super::record;
use crate::bim;
use crate::calls::ShelfCase;
use crate::vectors::vectors_of;
use crate::words::{hex, unhex};
use std::sync::LazyLock;

static ALL: LazyLock<Vec<(String, ShelfCase)>> = LazyLock::new(|| {
    let named = |block: &str| {
        let name = block.lines().next()?.strip_prefix("case ")?;
        Some((name.to_string(), case_of(block)?))
    };
    let file = include_str!("../../../examples/shelves.txt");
    vectors_of(file).map(|block| named(block).unwrap_or_else(|| panic!("not understood: {block}"))).collect()
});

/// All of them, by name.
pub fn all() -> &'static [(String, ShelfCase)] {
    &ALL
}

/// Five records, record k with root name k, type 0 and 600, 100, 900, 10, 300 bytes of value k + 1.
fn five() -> Vec<u8> {
    (0..).zip([600, 100, 900, 10, 300]).flat_map(|(k, bytes)| record(k, 0, &vec![k as u8 + 1; bytes])).collect()
}

/// Bytes in pieces: hexadecimal, or so often the same, `600*01`.
fn pieces(words: &[&str]) -> Option<Vec<u8>> {
    let piece = |word: &&str| match word.split_once('*') {
        Some((times, bytes)) => Some(unhex(bytes)?.repeat(times.parse().ok()?)),
        None => unhex(word),
    };
    Some(words.iter().map(piece).collect::<Option<Vec<_>>>()?.concat())
}

/// Whether a block is one of these vectors.
pub fn is_shelf(block: &str) -> bool {
    block.lines().any(|line| ["write ", "read ", "salvage "].iter().any(|call| line.starts_with(call)))
}

/// The case of a block: its lines are done one after another, and the call is given what they leave.
fn case_of(block: &str) -> Option<ShelfCase> {
    let (asked, _) = block.split_once("\nanswer ")?;
    let (mut bytes, mut is_file, mut called) = (vec![], false, None);
    for line in asked.lines().skip(1) {
        let words: Vec<_> = line.split(' ').collect();
        let number = |index: usize| words.get(index)?.parse::<usize>().ok();
        let (key, rest) = words.split_first()?;
        // Everything but the stream itself and what asks is done to its file.
        if !is_file && !matches!(*key, "five" | "record" | "stream" | "write" | "read" | "salvage" | "given") {
            (bytes, is_file) = (cut_anyway(&bytes), true);
        }
        let at = |block: usize| Some(bim::BLOCK_BYTES * block).filter(|at| at + bim::BLOCK_BYTES <= bytes.len());
        match *key {
            "five" => bytes.extend(five()),
            "record" => bytes.extend(record(number(1)? as u16, number(2)? as u16, &pieces(&rest[2..])?)),
            "stream" => bytes.extend(pieces(rest)?),
            "front" => bytes = [cut_anyway(&pieces(rest)?), bytes].concat(),
            "change" => {
                let (from, other) = (at(number(1)?)? + number(2)?, pieces(&rest[2..])?);
                bytes.get_mut(from..from + other.len())?.copy_from_slice(&other);
            }
            "mend" => {
                let from = at(number(1)?)?;
                mend(&mut bytes[from..from + bim::BLOCK_BYTES]);
            }
            "swap" => {
                let (one, other) = (at(number(1)?)?, at(number(2)?)?);
                (0..bim::BLOCK_BYTES).for_each(|byte| bytes.swap(one + byte, other + byte));
            }
            "without" => {
                let from = at(number(1)?)?;
                bytes.drain(from..from + bim::BLOCK_BYTES);
            }
            "between" => {
                let from = bim::BLOCK_BYTES * number(1)?;
                bytes.splice(from..from, pieces(&rest[1..])?);
            }
            "cut" => bytes.truncate(number(1)?),
            "more" => bytes.extend(pieces(rest)?),
            "write" => called = Some((Call::Write, vec![number(1)?])),
            "read" => called = Some((Call::Read, vec![number(1)?])),
            "salvage" => called = Some((Call::Salvage, vec![number(1)?, number(2)?])),
            "given" => {}
            _ => return None,
        }
    }
    let (call, mut rooms) = called?;
    if call != Call::Write && !is_file {
        bytes = cut_anyway(&bytes);
    }
    rooms.push(bim::SHELF_AREA);
    Some(ShelfCase { call, given: bytes, rooms })
}

/// The vector as the peer gives it now.
pub fn again(block: &str) -> Option<String> {
    let (asked, _) = block.split_once("\nanswer ")?;
    let case = case_of(block)?;
    let left = case.judged();
    let Said { number, place, counts, outputs } = Said::of(left.number, left.outputs);
    let mut lines: String =
        asked.lines().filter(|line| !line.starts_with("given ")).map(|line| format!("{line}\n")).collect();
    lines += &format!("given {}\n", hex(&case.given));
    lines += &format!(
        "answer {number} {place} {} {} {} {} {}\n",
        counts.records, counts.stream, counts.file, counts.entries, counts.dropped
    );
    if number == bim::ACCEPTED {
        let made = if case.call == Call::Read { counts.stream } else { counts.file };
        lines += &format!("made {}\n", hex(&outputs[0][..made as usize]));
        for entry in
            outputs.get(1).iter().flat_map(|list| list.chunks_exact(bim::DROPPED)).take(counts.entries as usize)
        {
            let word = |at: usize| u32::from_be_bytes([entry[at], entry[at + 1], entry[at + 2], entry[at + 3]]);
            lines += &format!("dropped {} {} {}\n", word(0), word(4), word(8));
        }
    }
    Some(lines + "end\n")
}
