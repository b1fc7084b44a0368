//! What the tests share: calls over buffers filled with dirt, and tables written row by row.

#![allow(dead_code, unused_imports, unused_macros)] // no test file uses all of it

/// Where a stand-in departs from the peer: nowhere, or in one of these ways.
macro_rules! faults {
    ($($(#[$doc:meta])* $name:ident,)*) => {
        #[derive(Clone, Copy, Debug, PartialEq, Eq)]
        enum Fault { None, $($(#[$doc])* $name,)* }
        const FAULTS: &[Fault] = &[$(Fault::$name,)*];
    };
}

use peer::answer::Answer;
use peer::rows::Rows;

/// The worked table of document 01.
pub fn worked_table() -> Vec<u32> {
    table_of(
        &[[1, 2, 0, 1, 0, 0, 0], [1, 1, 0, 0, 0, 0, 0], [1, 1, 0, 0, 1, 0xffff_fffd, 4], [1, 1, 0, 0, 5, 0, 0]],
        &[[20, 0, 2]],
        &[[1, 1, 2, 0], [0, 11, 3, 0], [3, 3, 0, 3], [0, 12, 1, 0]],
    )
}

/// The worked payload, mended as the readings say.
pub const WORKED_PAYLOAD: [u8; 9] = [0x8f, 0x8c, 0xaa, 0x15, 0x12, 0x43, 0x4e, 0x0c, 0x20];

/// The worked list.
pub const WORKED_EVENTS: [[u32; 4]; 14] = [
    [1, 10, 1, 10],
    [2, 20, 1, 1],
    [3, 4_294_967_295, 0, 3],
    [1, 11, 1, 10],
    [3, 2, 0, 21],
    [6, 0, 0, 0],
    [5, 2, 0, 3],
    [1, 12, 1, 5],
    [3, 1, 0, 1],
    [6, 0, 0, 0],
    [1, 12, 1, 5],
    [3, 0, 0, 1],
    [6, 0, 0, 0],
    [6, 0, 0, 0],
];

/// A table of these rows.
pub fn table_of(types: &[[u32; 7]], attributes: &[[u32; 3]], particles: &[[u32; 4]]) -> Vec<u32> {
    Rows { types: types.to_vec(), attributes: attributes.to_vec(), particles: particles.to_vec(), casts: None }.words()
}

/// The bits of a text of 0s and 1s, padded with zeros to whole bytes.
pub fn bits(text: &str) -> Vec<u8> {
    let mut bytes = vec![0; text.len().div_ceil(8)];
    for (at, bit) in text.bytes().enumerate() {
        if bit == b'1' {
            bytes[at / 8] |= 0x80 >> (at % 8);
        }
    }
    bytes
}

/// A reader's answer with its buffers.
pub struct Read {
    pub answer: Answer,
    pub events: Vec<u32>,
    pub texts: Vec<u8>,
}

impl Read {
    /// Accepted with exactly these events and texts, and zeros behind them.
    pub fn accepted(&self, mode: u32, events: &[[u32; 4]], texts: &[u8], bits: usize) {
        assert_eq!(self.answer, Answer::accepted(mode, events.len(), texts.len(), bits));
        let words = events.concat();
        assert_eq!(self.events[..words.len()], words);
        assert!(self.events[words.len()..].iter().all(|&word| word == 0));
        assert_eq!(&self.texts[..texts.len()], texts);
        assert!(self.texts[texts.len()..].iter().all(|&byte| byte == 0));
    }

    /// Refused with this number, place and path, and all buffers zero.
    pub fn refused(&self, number: u32, place: u64, path: &[u16]) {
        assert_eq!((self.answer.number, self.answer.place), (number, place));
        assert_eq!(self.answer.path.names(), path);
        let rest = (self.answer.mode, self.answer.events, self.answer.text, self.answer.bits);
        assert_eq!(rest, (0, 0, 0, 0));
        assert!(self.events.iter().all(|&word| word == 0));
        assert!(self.texts.iter().all(|&byte| byte == 0));
    }
}

/// Reads as party 0, with room for `room` events and `text_room` text bytes.
pub fn read(table: &[u32], root_name: u32, root_type: u32, payload: &[u8], room: usize, text_room: usize) -> Read {
    read_by(0, table, (root_name, root_type), payload, room, text_room)
}

/// Reads as this party.
pub fn read_by(party: u32, table: &[u32], root: (u32, u32), payload: &[u8], room: usize, text_room: usize) -> Read {
    // Three odd words behind the last whole event must be cleared too.
    let mut events = vec![0xdddd_dddd; 4 * room + 3];
    let mut texts = vec![0xdd; text_room];
    let answer = peer::reader::read(table, party, root.0, root.1, payload, &mut events, &mut texts);
    Read { answer, events, texts }
}

/// A writer's answer with its buffer.
pub struct Written {
    pub answer: Answer,
    pub payload: Vec<u8>,
}

impl Written {
    /// Refused with this number and place, and the buffer zero.
    pub fn refused(&self, number: u32, place: u64) {
        assert_eq!((self.answer.number, self.answer.place), (number, place));
        assert!(self.answer.path.names().is_empty());
        let rest = (self.answer.mode, self.answer.events, self.answer.text, self.answer.bits);
        assert_eq!(rest, (0, 0, 0, 0));
        assert!(self.payload.iter().all(|&byte| byte == 0));
    }
}

/// Writes as party 0, into `room` bytes.
pub fn write(
    table: &[u32],
    root_name: u32,
    root_type: u32,
    mode: u32,
    events: &[[u32; 4]],
    texts: &[u8],
    room: usize,
) -> Written {
    write_by(0, table, (root_name, root_type), mode, events, texts, room)
}

/// Writes as this party.
pub fn write_by(
    party: u32,
    table: &[u32],
    root: (u32, u32),
    mode: u32,
    events: &[[u32; 4]],
    texts: &[u8],
    room: usize,
) -> Written {
    let mut payload = vec![0xdd; room];
    let words = events.concat();
    let answer = peer::writer::write(table, party, root.0, root.1, mode, &words, texts, &mut payload);
    Written { answer, payload }
}
