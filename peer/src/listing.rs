//! The listing program: its input bytes as its output text. It reads as party 0.

use crate::bim;
use crate::reader;
use crate::words::words_of;
use std::fmt::Write;

/// The payload bytes that are looked at: one over the limit, so that 3 shows.
const PAYLOAD_SEEN: usize = bim::MOST_PAYLOAD + 1;

/// The most input bytes that bear on the output.
pub const MOST_INPUT: usize = 4 + bim::MOST_TABLE + 4 + PAYLOAD_SEEN;

/// Table word count, words, root name and type (2 bytes each), payload; all big-endian.
pub fn listing(input: &[u8]) -> String {
    let Some((table, root_name, root_type, payload)) = parts(input) else {
        return format!("refused {} 0\n", bim::TABLE);
    };
    let mut events = [0; bim::EVENT_WORDS * bim::MOST_EVENTS];
    let mut texts = [0; bim::MOST_PAYLOAD];
    let answer = reader::read(&table, 0, root_name, root_type, payload, &mut events, &mut texts);
    if !answer.is_accepted() {
        return format!("refused {} {}\n", answer.number, answer.place);
    }
    let mut text = format!("events {} text {} bits {}\n", answer.events, answer.text, answer.bits);
    for event in events.chunks_exact(bim::EVENT_WORDS).take(answer.events) {
        // Writing to a String cannot fail.
        let _ = writeln!(text, "{} {} {} {}", event[0], event[1], event[2], event[3]);
    }
    text
}

/// The input's parts, or `None` where it ends before the root type is whole or counts too many words.
fn parts(input: &[u8]) -> Option<(Vec<u32>, u32, u32, &[u8])> {
    let (count, rest) = input.split_first_chunk::<4>()?;
    let count = u32::from_be_bytes(*count) as usize;
    if count > bim::MOST_TABLE_WORDS || rest.len() < 4 * count {
        return None;
    }
    let (words, rest) = rest.split_at(4 * count);
    let (&[name_high, name_low, type_high, type_low], payload) = rest.split_first_chunk::<4>()?;
    Some((
        words_of(words),
        u32::from(u16::from_be_bytes([name_high, name_low])),
        u32::from(u16::from_be_bytes([type_high, type_low])),
        &payload[..payload.len().min(PAYLOAD_SEEN)],
    ))
}
