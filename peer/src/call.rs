//! A call in words: what the named cases ask, and what the demands are held of.

use crate::answer::{Answer, Path};
use crate::{bim, table, writer};

/// The numbers that a reading can be answered with; 24 at the C boundary alone.
#[rustfmt::skip]
pub const READER: [u32; 21] = [
    bim::ACCEPTED, bim::TABLE, bim::ROOT, bim::PARTY, bim::PAYLOAD_SIZE, bim::MODE_BYTE, bim::PAST_END, bim::DEPTH, bim::EVENT_ROOM,
    bim::TEXT_ROOM, bim::NOT_HELD, bim::LENGTH, bim::CONTENT_SHORT, bim::NOT_SHORTEST, bim::TOO_LARGE, bim::NO_SUCH_CODE,
    bim::MINUS_ZERO, bim::NOT_UTF8, bim::CONTROL, bim::LEFT_OVER, bim::AREA_SIZE,
];
/// The numbers that a writing can be answered with.
#[rustfmt::skip]
pub const WRITER: [u32; 15] = [
    bim::ACCEPTED, bim::TABLE, bim::ROOT, bim::PARTY, bim::DEPTH, bim::NOT_HELD, bim::NOT_UTF8, bim::CONTROL, bim::NO_READING, bim::BLANK,
    bim::OUTSIDE_ROW, bim::PAYLOAD_ROOM, bim::WRITE_MODE, bim::TEXT_BYTES, bim::AREA_SIZE,
];
/// Those of the short call: it is told no mode, so that 22 cannot arise.
#[rustfmt::skip]
pub const SHORT_WRITER: [u32; 14] = [
    bim::ACCEPTED, bim::TABLE, bim::ROOT, bim::PARTY, bim::DEPTH, bim::NOT_HELD, bim::NOT_UTF8, bim::CONTROL, bim::NO_READING, bim::BLANK,
    bim::OUTSIDE_ROW, bim::PAYLOAD_ROOM, bim::TEXT_BYTES, bim::AREA_SIZE,
];
/// The numbers that a setting can be answered with.
pub const SETTER: [u32; 5] = [bim::ACCEPTED, bim::TABLE, bim::ROOT, bim::PARTY, bim::AREA_SIZE];

/// Which call, with its input.
#[derive(Clone, Debug)]
pub enum Call {
    /// The check of a table.
    Table(Vec<u32>),
    /// The reader.
    Read(Read),
    /// The writer.
    Write(Write),
    /// The setting of a mark.
    Set(Set),
}

/// A setting's input.
#[derive(Clone, Debug)]
pub struct Set {
    /// The table.
    pub table: Vec<u32>,
    /// Whose mark.
    pub party: u32,
    /// Of which type.
    pub of_type: u32,
    /// 0 clears, any other sets.
    pub mark: u32,
}

impl Set {
    /// What the peer answers, and the table as it is then.
    pub fn ask(&self) -> (Answer, Vec<u32>) {
        let mut words = self.table.clone();
        let answer = match table::set_held(&mut words, self.party, self.of_type, self.mark) {
            Ok(()) => Answer::accepted(0, 0, 0, 0),
            Err(refusal) => Answer::refused(refusal, Path::empty()),
        };
        (answer, words)
    }
}

/// A reader's input.
#[derive(Clone, Debug)]
pub struct Read {
    /// The table.
    pub table: Vec<u32>,
    /// Who reads.
    pub party: u32,
    /// Root name and type.
    pub root: (u32, u32),
    /// The payload.
    pub payload: Vec<u8>,
    /// Lent event words.
    pub event_words: usize,
    /// Lent text bytes.
    pub text_room: usize,
}

/// A writer's input.
#[derive(Clone, Debug)]
pub struct Write {
    /// The table.
    pub table: Vec<u32>,
    /// Who writes.
    pub party: u32,
    /// Root name and type.
    pub root: (u32, u32),
    /// The mode asked; none asks the short call.
    pub mode: Option<u32>,
    /// The list's words.
    pub events: Vec<u32>,
    /// The texts.
    pub texts: Vec<u8>,
    /// Lent payload bytes.
    pub room: usize,
}

impl Write {
    /// What the peer answers, into this buffer.
    pub fn ask(&self, payload: &mut [u8]) -> Answer {
        let Write { table, party, root, mode, events, texts, .. } = self;
        match mode {
            Some(mode) => writer::write(table, *party, root.0, root.1, *mode, events, texts, payload),
            None => writer::write_lengths(table, *party, root.0, root.1, events, texts, payload),
        }
    }
}
