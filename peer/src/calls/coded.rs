//! A case as a fuzzer's bytes. Any bytes are some case. Words are coded in one byte where they are small or at a limit, so
//! that a changed byte changes a row, and not only the top of a word. A table is given by its words or is one of the named
//! cases': where it is long and the payload is not, most changes would make it wrong.

use super::case::{Call, Case};
use crate::bim;
use crate::words::{big_endian, words_of};
use std::sync::OnceLock;

/// The words that have a byte of their own besides the small ones, from `SPECIAL` on.
const SPECIALS: [u32; 4] = [65_535, 65_536, 1 << 31, u32::MAX];
const SPECIAL: u8 = 252;
const TWO_BYTES: u8 = 250;
const FOUR_BYTES: u8 = 251;
/// In the byte before a table: it is one of the named cases'.
const NAMED: u8 = 0x80;
/// The most words of a table or list, and the most room: somewhat more than a call can use.
const MOST_GIVEN: usize = 15_000;
const MOST_ROOM: usize = 33_000;
/// Words from here on give the area other rooms than the right one, all below this.
const ODD_AREA: usize = 240;

/// The case that these bytes code.
pub fn decode(bytes: &[u8]) -> Case {
    let mut rest = Rest(bytes);
    let call = Call::ALL[usize::from(rest.byte()) % Call::ALL.len()];
    let party = rest.word();
    let root = (rest.word(), rest.word());
    let mode = rest.word();
    let area = area(rest.word());
    let (first, second) = (within(rest.word()), within(rest.word()));
    let table = rest.table();
    match call {
        Call::Check => Case { call, party: 0, root: (0, 0), mode: 0, inputs: vec![table], rooms: vec![area] },
        Call::SetHeld => Case { call, party, root: (0, root.1), mode, inputs: vec![table], rooms: vec![area] },
        Call::Read => {
            Case { call, party, root, mode: 0, inputs: vec![table, rest.0.to_vec()], rooms: vec![first, second, area] }
        }
        Call::Write | Call::WriteLengths => {
            let odd = rest.byte() % 16;
            let list = rest.words(odd);
            let mode = if call == Call::Write { mode } else { 0 };
            Case { call, party, root, mode, inputs: vec![table, list, rest.0.to_vec()], rooms: vec![first, area] }
        }
    }
}

/// The bytes that code this case, briefly.
pub fn code(case: &Case) -> Vec<u8> {
    encode(case, named_tables().iter().position(|table| *table == case.inputs[0]))
}

/// The bytes that code this case, its table as the named one of that index or by its words, where its rooms and words are within the limits
/// and its lengths whole words.
fn encode(case: &Case, named: Option<usize>) -> Vec<u8> {
    let mut bytes = vec![case.call as u8];
    let (rooms, area) = case.rooms.split_at(case.rooms.len() - 1);
    let room = |index: usize| rooms.get(index).map_or(0, |&room| room as u32);
    for word in [case.party, case.root.0, case.root.1, case.mode, area_word(area[0]), room(0), room(1)] {
        put_word(&mut bytes, word);
    }
    match named {
        Some(index) => {
            bytes.push(NAMED);
            put_word(&mut bytes, index as u32);
        }
        None => put_words(&mut bytes, &case.inputs[0]),
    }
    match case.call {
        Call::Check | Call::SetHeld => {}
        Call::Read => bytes.extend(&case.inputs[1]),
        Call::Write | Call::WriteLengths => {
            put_words(&mut bytes, &case.inputs[1]);
            bytes.extend(&case.inputs[2]);
        }
    }
    bytes
}

/// The area's room, mostly the right one.
fn area(word: u32) -> usize {
    match word as usize {
        0..ODD_AREA => bim::AREA,
        other => other % ODD_AREA,
    }
}

fn area_word(area: usize) -> u32 {
    match area {
        bim::AREA => 0,
        other => (other + ODD_AREA) as u32,
    }
}

/// A room: mostly the word itself, and a small one where that is too large.
fn within(word: u32) -> usize {
    if word as usize <= MOST_ROOM {
        word as usize
    } else {
        word as usize % 64
    }
}

/// The bytes that are left. Past the end all is 0.
pub(super) struct Rest<'a>(pub(super) &'a [u8]);

impl Rest<'_> {
    pub(super) fn byte(&mut self) -> u8 {
        let Some((&byte, rest)) = self.0.split_first() else {
            return 0;
        };
        self.0 = rest;
        byte
    }

    pub(super) fn word(&mut self) -> u32 {
        let bytes = match self.byte() {
            TWO_BYTES => 2,
            FOUR_BYTES => 4,
            byte if byte >= SPECIAL => return SPECIALS[usize::from(byte - SPECIAL)],
            byte => return u32::from(byte),
        };
        (0..bytes).fold(0, |word, _| word << 8 | u32::from(self.byte()))
    }

    fn table(&mut self) -> Vec<u8> {
        let first = self.byte();
        if first < NAMED {
            return self.words(first % 4);
        }
        let tables = named_tables();
        tables[self.word() as usize % tables.len()].clone()
    }

    /// Words, their number first, as bytes; and `odd` bytes more.
    fn words(&mut self, odd: u8) -> Vec<u8> {
        let number = self.word() as usize % (MOST_GIVEN + 1);
        let mut words = vec![];
        while words.len() < number && !self.0.is_empty() {
            words.push(self.word());
        }
        let mut bytes = big_endian(&words);
        bytes.resize(bytes.len() + usize::from(odd), 1);
        bytes
    }
}

/// The tables of the named payloads and lists, each once.
fn named_tables() -> &'static [Vec<u8>] {
    static TABLES: OnceLock<Vec<Vec<u8>>> = OnceLock::new();
    TABLES.get_or_init(|| {
        let mut tables = vec![];
        for case in super::named().into_iter().filter(|case| !matches!(case.call, Call::Check | Call::SetHeld)) {
            if !tables.contains(&case.inputs[0]) {
                tables.push(case.inputs[0].clone());
            }
        }
        tables
    })
}

pub(super) fn put_word(bytes: &mut Vec<u8>, word: u32) {
    if let Some(at) = SPECIALS.iter().position(|&special| special == word) {
        bytes.push(SPECIAL + at as u8);
    } else if word < u32::from(TWO_BYTES) {
        bytes.push(word as u8);
    } else if word <= 0xffff {
        bytes.push(TWO_BYTES);
        bytes.extend(&word.to_be_bytes()[2..]);
    } else {
        bytes.push(FOUR_BYTES);
        bytes.extend(&word.to_be_bytes());
    }
}

fn put_words(bytes: &mut Vec<u8>, words: &[u8]) {
    bytes.push((words.len() % 4) as u8);
    put_word(bytes, (words.len() / 4) as u32);
    words_of(words).into_iter().for_each(|word| put_word(bytes, word));
}

/// The named cases as a fuzzer's first bytes, with their tables by words and as named: those that code themselves.
pub fn seeds() -> Vec<Vec<u8>> {
    let mut seeds = vec![];
    for case in super::named() {
        let named = named_tables().iter().position(|table| *table == case.inputs[0]);
        for bytes in [Some(encode(&case, None)), named.map(|index| encode(&case, Some(index)))].into_iter().flatten() {
            if decode(&bytes) == case {
                seeds.push(bytes);
            }
        }
    }
    seeds
}

#[cfg(test)]
mod tests {
    use super::*;

    #[test]
    fn named_cases_are_seeds() {
        let (seeds, named) = (seeds(), super::super::named());
        let met = named.iter().filter(|&case| seeds.iter().any(|seed| decode(seed) == *case)).count();
        assert!(met * 20 > named.len() * 19, "{met} of {}", named.len());
        assert!(seeds.len() > named.len() * 3 / 2, "few have their table by its index: {}", seeds.len());
    }

    #[test]
    fn any_bytes_are_a_case() {
        let mut rng = crate::rng::Rng::new(1);
        for _ in 0..10_000 {
            let bytes: Vec<_> = (0..rng.below(40)).map(|_| rng.word() as u8).collect();
            let case = decode(&bytes);
            assert!(case.rooms.iter().all(|&room| room <= MOST_ROOM));
            if case.inputs.split_last().is_some_and(|(_, words)| words.iter().all(|words| words.len() % 4 == 0)) {
                assert_eq!(decode(&encode(&case, None)), case);
            }
        }
    }
}
