//! The sides of the comparison: the proved calls, the peer's fast ones, and a plain pass over the same bytes. Each has a function of its
//! own name, which callgrind can tell apart.

use crate::proved::Library;
use peer::calls::{Calls, Case};
use peer::{bim, calls_of, host, swift};

/// Who is asked.
#[derive(Clone, Copy, PartialEq, Eq)]
pub enum Side {
    /// The proved library.
    Proved,
    /// The peer's fast calls.
    Peer,
    /// What no call can do without: output cleared, table words converted and compared.
    Plain,
    /// The judge: plain code with wide loads, which converts words as the proved calls do.
    Judge,
}

/// In the order in which they are asked.
pub const SIDES: [Side; 4] = [Side::Proved, Side::Peer, Side::Plain, Side::Judge];

/// The functions whose instructions count.
#[rustfmt::skip]
pub const FUNCTIONS: [&str; 10] = [
    "bim_read", "bim_write", "bim_write_lengths", "swift_read", "swift_write", "swift_write_lengths", "plain_pass",
    "judge_read", "judge_write", "judge_write_lengths",
];

/// A case's buffers, the same for every side.
pub struct Buffers {
    inputs: Vec<Vec<u8>>,
    outputs: Vec<Vec<u8>>,
    words: Vec<u32>,
}

impl Buffers {
    pub fn of(case: &Case) -> Self {
        let outputs = case.lent(<[u8]>::to_vec, |room| vec![0xdd; room]);
        Buffers {
            inputs: case.inputs.clone(),
            outputs,
            words: vec![0; bim::MOST_TABLE_WORDS + bim::EVENT_WORDS * bim::MOST_EVENTS],
        }
    }

    /// What the side that was asked last left, in the call's order.
    pub fn outputs(&self) -> &[Vec<u8>] {
        &self.outputs
    }

    /// Asks a side.
    #[inline(always)]
    pub fn ask(&mut self, case: &Case, side: Side) -> u32 {
        match side {
            Side::Proved => self.call(case, &Library::default()),
            Side::Peer => self.call(case, &Swift),
            Side::Judge => self.call(case, &Judge),
            Side::Plain => plain_pass(
                &self.inputs[0],
                self.inputs.get(2).map(|_| &self.inputs[1][..]),
                &mut self.words,
                &mut self.outputs,
            ),
        }
    }

    #[inline(always)]
    fn call(&mut self, case: &Case, calls: &impl Calls) -> u32 {
        case.ask(calls, &self.inputs, &mut self.outputs)
    }
}

/// Both sides answer a case as the judge does, byte for byte.
pub fn check(case: &Case) {
    let mut judged = Buffers::of(case);
    let number = judged.call(case, &Judge);
    for side in [Side::Proved, Side::Peer] {
        let mut buffers = Buffers::of(case);
        assert_eq!(buffers.ask(case, side), number);
        assert!(buffers.outputs == judged.outputs, "other bytes than the judge's");
    }
}

/// Clears the output, converts the table's words and a list's, and compares each table word once.
#[no_mangle]
#[inline(never)]
fn plain_pass(table: &[u8], list: Option<&[u8]>, words: &mut [u32], outputs: &mut [Vec<u8>]) -> u32 {
    outputs.iter_mut().for_each(|output| output.fill(0));
    let (table_words, list_words) = words.split_at_mut(bim::MOST_TABLE_WORDS);
    let table_words = &mut table_words[..table.len() / 4];
    convert(table, table_words);
    if let Some(list) = list {
        convert(list, &mut list_words[..list.len() / 4]);
    }
    table_words.iter().fold(0, |over, &word| over + u32::from(word > 65_536))
}

#[inline(always)]
fn convert(bytes: &[u8], words: &mut [u32]) {
    for (word, bytes) in words.iter_mut().zip(bytes.as_chunks::<4>().0) {
        *word = u32::from_be_bytes(*bytes);
    }
}

/// The calls of a module under names that callgrind can tell apart.
macro_rules! counted {
    ($name:ident of $module:ident: $read:ident, $write:ident, $write_lengths:ident) => {
        #[no_mangle]
        #[inline(never)]
        #[allow(clippy::too_many_arguments)] // the boundary's names and order are fixed
        fn $read(
            table: &[u8],
            party: u32,
            root_name: u32,
            root_type: u32,
            payload: &[u8],
            events: &mut [u8],
            texts: &mut [u8],
            area: &mut [u8],
        ) -> u32 {
            $module::read(table, party, root_name, root_type, payload, events, texts, area)
        }

        #[no_mangle]
        #[inline(never)]
        #[allow(clippy::too_many_arguments)] // the boundary's names and order are fixed
        fn $write(
            table: &[u8],
            party: u32,
            root_name: u32,
            root_type: u32,
            mode: u32,
            events: &[u8],
            texts: &[u8],
            payload: &mut [u8],
            area: &mut [u8],
        ) -> u32 {
            $module::write(table, party, root_name, root_type, mode, events, texts, payload, area)
        }

        #[no_mangle]
        #[inline(never)]
        #[allow(clippy::too_many_arguments)] // the boundary's names and order are fixed
        fn $write_lengths(
            table: &[u8],
            party: u32,
            root_name: u32,
            root_type: u32,
            events: &[u8],
            texts: &[u8],
            payload: &mut [u8],
            area: &mut [u8],
        ) -> u32 {
            $module::write_lengths(table, party, root_name, root_type, events, texts, payload, area)
        }

        calls_of!($name = $module::check_table, $read, $write, $write_lengths, $module::set_held);
    };
}

counted!(Swift of swift: swift_read, swift_write, swift_write_lengths);
counted!(Judge of host: judge_read, judge_write, judge_write_lengths);
