//! One call's input, and what the peer or another answers.

use super::{Calls, Reading, Setting, Writing};
use crate::answer::{refusal, Answer, Path};
use crate::bim;
use crate::call::{self, Read, Set, Write};
use crate::demands::Outcome;
use crate::gen::Sample;
use crate::words::{big_endian, hex, words_of};

/// Which call.
#[derive(Clone, Copy, Debug, PartialEq, Eq)]
pub enum Call {
    /// `bim_check_table`.
    Check,
    /// `bim_read`.
    Read,
    /// `bim_write`.
    Write,
    /// `bim_write_lengths`.
    WriteLengths,
    /// `bim_set_held`.
    SetHeld,
}

impl Call {
    /// All five.
    pub const ALL: [Call; 5] = [Call::Check, Call::Read, Call::Write, Call::WriteLengths, Call::SetHeld];

    /// The call's C name.
    pub fn name(self) -> &'static str {
        ["bim_check_table", "bim_read", "bim_write", "bim_write_lengths", "bim_set_held"][self as usize]
    }

    /// The numbers that it can answer.
    pub fn numbers(self) -> &'static [u32] {
        match self {
            Call::Check => &[bim::ACCEPTED, bim::TABLE, bim::AREA_SIZE],
            Call::Read => &call::READER,
            Call::Write => &call::WRITER,
            Call::WriteLengths => &call::SHORT_WRITER,
            Call::SetHeld => &call::SETTER,
        }
    }

    /// What it takes, by name.
    fn input_names(self) -> &'static [&'static str] {
        match self {
            Call::Check | Call::SetHeld => &["table"],
            Call::Read => &["table", "payload"],
            Call::Write | Call::WriteLengths => &["table", "events", "texts"],
        }
    }

    /// What it fills, by name.
    pub fn output_names(self) -> &'static [&'static str] {
        match self {
            Call::Check => &["area"],
            Call::Read => &["events", "texts", "area"],
            Call::Write | Call::WriteLengths => &["payload", "area"],
            Call::SetHeld => &["table", "area"],
        }
    }
}

/// A call's input.
#[derive(Clone, Debug, PartialEq, Eq)]
pub struct Case {
    /// Which call.
    pub call: Call,
    /// Who asks; 0 for a check, which is nobody's.
    pub party: u32,
    /// Root name and type; of a setting 0 and the type.
    pub root: (u32, u32),
    /// The mode that `bim_write` is told, the mark that `bim_set_held` is; 0 for every other call.
    pub mode: u32,
    /// The bytes given, in the call's order.
    pub inputs: Vec<Vec<u8>>,
    /// The bytes lent for what is written, in the call's order. The table of a setting is given, and is changed where it lies.
    pub rooms: Vec<usize>,
}

impl Case {
    /// A table to check.
    pub fn check(table: Vec<u8>) -> Self {
        Case { call: Call::Check, party: 0, root: (0, 0), mode: 0, inputs: vec![table], rooms: vec![bim::AREA] }
    }

    /// A payload for a party to read.
    pub fn read(table: &[u32], party: u32, root: (u32, u32), payload: Vec<u8>, events: usize, texts: usize) -> Self {
        let inputs = vec![big_endian(table), payload];
        Case { call: Call::Read, party, root, mode: 0, inputs, rooms: vec![events, texts, bim::AREA] }
    }

    /// A call in words.
    pub fn of(call: &call::Call) -> Self {
        match call {
            call::Call::Table(table) => Case::check(big_endian(table)),
            call::Call::Read(Read { table, party, root, payload, event_words, text_room }) => {
                Case::read(table, *party, *root, payload.clone(), 4 * event_words, *text_room)
            }
            call::Call::Write(Write { table, party, root, mode, events, texts, room }) => {
                let (told, events) = (mode.unwrap_or(0), big_endian(events));
                let case = Case::write(table, *party, *root, told, events, texts.clone(), *room);
                if mode.is_some() {
                    case
                } else {
                    case.without_mode()
                }
            }
            call::Call::Set(Set { table, party, of_type, mark }) => {
                Case::set(big_endian(table), [*party, *of_type, *mark])
            }
        }
    }

    /// A sample's payload to read, with the room that its list takes.
    pub fn read_sample(table: &[u32], sample: &Sample) -> Self {
        let (words, texts) = (bim::EVENT_WORDS * sample.events.len(), sample.texts.len());
        Case::of(&call::Call::Read(sample.reading(table, words, texts)))
    }

    /// A list for a party to write.
    pub fn write(
        table: &[u32],
        party: u32,
        root: (u32, u32),
        mode: u32,
        list: Vec<u8>,
        texts: Vec<u8>,
        room: usize,
    ) -> Self {
        let inputs = vec![big_endian(table), list, texts];
        Case { call: Call::Write, party, root, mode, inputs, rooms: vec![room, bim::AREA] }
    }

    /// A mark to set: party, type, and the mark.
    pub fn set(table: Vec<u8>, [party, of_type, mark]: [u32; 3]) -> Self {
        let (inputs, rooms) = (vec![table], vec![bim::AREA]);
        Case { call: Call::SetHeld, party, root: (0, of_type), mode: mark, inputs, rooms }
    }

    /// What the call is lent to be filled or changed, in its order: given bytes, or so many of any.
    pub fn lent<T>(&self, mut given: impl FnMut(&[u8]) -> T, mut any: impl FnMut(usize) -> T) -> Vec<T> {
        let changed = (self.call == Call::SetHeld).then(|| given(&self.inputs[0]));
        changed.into_iter().chain(self.rooms.iter().map(|&room| any(room))).collect()
    }

    /// The same list to write by the short call.
    pub fn without_mode(self) -> Self {
        Case { call: Call::WriteLengths, mode: 0, ..self }
    }

    /// The mode that a list is written in.
    pub fn mode_in_effect(&self) -> u32 {
        match self.call {
            Call::WriteLengths => bim::MODE_ALWAYS,
            _ => self.mode,
        }
    }

    /// A sample's list to write, with the room that its payload takes.
    pub fn write_sample(table: &[u32], sample: &Sample) -> Self {
        Case::of(&call::Call::Write(sample.writing(table, 0)))
    }

    /// Asks `calls`, with these bytes for inputs and these buffers.
    #[inline(always)]
    pub fn ask<I, O>(&self, calls: &(impl Calls + ?Sized), inputs: &[I], outputs: &mut [O]) -> u32
    where
        I: AsRef<[u8]>,
        O: AsMut<[u8]>,
    {
        let (party, root) = (self.party, self.root);
        let given = |index: usize| inputs[index].as_ref();
        match (self.call, outputs) {
            (Call::Check, [area]) => calls.check_table(given(0), area.as_mut()),
            (Call::Read, [events, texts, area]) => {
                let (events, texts, area) = (events.as_mut(), texts.as_mut(), area.as_mut());
                calls.read(Reading { table: given(0), party, root, payload: given(1), events, texts, area })
            }
            (Call::Write | Call::WriteLengths, [payload, area]) => {
                let (payload, area) = (payload.as_mut(), area.as_mut());
                let lent = Writing { table: given(0), party, root, events: given(1), texts: given(2), payload, area };
                if self.call == Call::Write {
                    calls.write(self.mode, lent)
                } else {
                    calls.write_lengths(lent)
                }
            }
            (Call::SetHeld, [table, area]) => {
                let (table, area) = (table.as_mut(), area.as_mut());
                calls.set_held(Setting { table, party, of_type: root.1, mark: self.mode, area })
            }
            _ => panic!("{self:?} has not the buffers of its call"),
        }
    }

    /// The bytes given and lent, those that are not 0 once more: what shrinking makes smaller.
    pub fn size(&self) -> usize {
        let given: usize =
            self.inputs.iter().map(|bytes| bytes.len() + bytes.iter().filter(|&&byte| byte != 0).count()).sum();
        given + self.rooms.iter().sum::<usize>()
    }

    /// Smaller inputs, the much smaller ones first.
    pub fn smaller(&self) -> Vec<Case> {
        let mut cases = vec![];
        let mut add = |change: &dyn Fn(&mut Case)| {
            let mut case = self.clone();
            change(&mut case);
            cases.push(case);
        };
        for (index, bytes) in self.inputs.iter().enumerate() {
            for length in shorter(bytes.len()) {
                add(&|case| case.inputs[index].truncate(length));
            }
        }
        for (index, &room) in self.rooms.iter().enumerate() {
            for room in shorter(room) {
                add(&|case| case.rooms[index] = room);
            }
        }
        for (index, bytes) in self.inputs.iter().enumerate() {
            for (at, _) in bytes.iter().enumerate().filter(|(_, &byte)| byte != 0) {
                add(&|case| case.inputs[index][at] = 0);
            }
        }
        cases
    }

    /// The whole input in hex.
    pub fn shown(&self) -> String {
        let (name, of_type) = self.root;
        let what = if self.call == Call::SetHeld { "mark" } else { "mode" };
        let mut text = format!("{} party {} root {name} {of_type} {what} {}", self.call.name(), self.party, self.mode);
        for (name, bytes) in self.call.input_names().iter().zip(&self.inputs) {
            text += &format!("\n  {name}, {} bytes: {}", bytes.len(), hex(bytes));
        }
        for (name, room) in self.call.output_names().iter().zip(&self.rooms) {
            text += &format!("\n  room for {name}: {room} bytes");
        }
        text
    }
}

/// Lengths below `length` worth trying.
fn shorter(length: usize) -> Vec<usize> {
    let mut lengths =
        vec![0, length / 2, length.saturating_sub(16), length.saturating_sub(4), length.saturating_sub(1)];
    lengths.retain(|&shorter| shorter < length);
    lengths.dedup();
    lengths
}

/// What a call left: its number and the buffers that it fills.
#[derive(Clone, Debug, PartialEq, Eq)]
pub struct Left {
    /// 0 on acceptance.
    pub number: u32,
    /// The buffers, in the call's order.
    pub outputs: Vec<Vec<u8>>,
}

impl Left {
    /// Whether the call was accepted.
    pub fn is_accepted(&self) -> bool {
        self.number == bim::ACCEPTED
    }

    /// The word of the area at `index`: place, mode, events, text, bits, path count.
    pub fn word(&self, index: usize) -> usize {
        match self.outputs.last().and_then(|area| area.get(4 * index..4 * index + 4)) {
            Some(&[a, b, c, d]) => u32::from_be_bytes([a, b, c, d]) as usize,
            _ => 0,
        }
    }

    /// The events given, as bytes; `None` where they are more than the buffer has.
    pub fn events(&self) -> Option<&[u8]> {
        self.outputs[0].get(..16 * self.word(2))
    }

    /// The text bytes given; `None` where they are more than the buffer has.
    pub fn texts(&self) -> Option<&[u8]> {
        self.outputs[1].get(..self.word(3))
    }

    /// A reading in words; `None` where its counts cannot be.
    pub fn reading(&self) -> Option<Outcome> {
        let area = &self.outputs[2];
        let (events, texts) = (self.events()?, self.texts()?);
        let names = area.get(24..24 + 2 * self.word(5))?;
        let mut path = Path::empty();
        names.chunks_exact(2).for_each(|name| path.push(u32::from(u16::from_be_bytes([name[0], name[1]]))));
        let answer = Answer {
            mode: self.word(1) as u32,
            events: self.word(2),
            text: self.word(3),
            bits: self.word(4),
            ..Answer::refused(refusal(self.number, self.word(0)), path)
        };
        Some(Outcome { answer, events: words_of(events), texts: texts.to_vec() })
    }
}
