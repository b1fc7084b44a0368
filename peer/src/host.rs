//! The C boundary's functions, byte for byte: words are 4 big-endian bytes, and the answer is a number and an area.
//!
//! The area is place, mode, events, text, bits, path count (six words), then 64 names of 2 bytes.

use crate::answer::{refusal, Answer, Path, Refusal};
use crate::bim;
use crate::reader;
use crate::table;
use crate::words::words_of;
use crate::writer;

/// Judges a table.
pub fn check_table(table: &[u8], area: &mut [u8]) -> u32 {
    if area.len() != bim::AREA {
        area.fill(0);
        return bim::AREA_SIZE;
    }
    let answer =
        match table_words(table).and_then(|words| table::check(&words).map_err(|word| refusal(bim::TABLE, word))) {
            Ok(()) => Answer::accepted(0, 0, 0, 0),
            Err(refusal) => Answer::refused(refusal, Path::empty()),
        };
    fill_area(&answer, area)
}

/// Reads a payload; `events`, `texts` and `area` are written.
#[allow(clippy::too_many_arguments)] // the boundary's names and order are fixed
pub fn read(
    table: &[u8],
    party: u32,
    root_name: u32,
    root_type: u32,
    payload: &[u8],
    events: &mut [u8],
    texts: &mut [u8],
    area: &mut [u8],
) -> u32 {
    if area.len() != bim::AREA {
        area.fill(0);
        events.fill(0);
        texts.fill(0);
        return bim::AREA_SIZE;
    }
    let mut words = vec![0; bim::EVENT_WORDS * (events.len() / bim::EVENT).min(bim::MOST_EVENTS)];
    let answer = match table_words(table) {
        Ok(table) => reader::read(&table, party, root_name, root_type, payload, &mut words, texts),
        Err(refusal) => {
            texts.fill(0);
            Answer::refused(refusal, Path::empty())
        }
    };
    events.fill(0);
    for (bytes, word) in events.chunks_exact_mut(4).zip(&words) {
        bytes.copy_from_slice(&word.to_be_bytes());
    }
    fill_area(&answer, area)
}

/// Writes a list; `payload` and `area` are written.
#[allow(clippy::too_many_arguments)] // the boundary's names and order are fixed
pub fn write(
    table: &[u8],
    party: u32,
    root_name: u32,
    root_type: u32,
    mode: u32,
    events: &[u8],
    texts: &[u8],
    payload: &mut [u8],
    area: &mut [u8],
) -> u32 {
    if area.len() != bim::AREA {
        area.fill(0);
        payload.fill(0);
        return bim::AREA_SIZE;
    }
    let answer = match table_words(table) {
        Ok(table) => {
            if writer::check_shape(events.len(), bim::EVENT).is_err() {
                writer::refuse_shape(&table, party, root_name, root_type, mode, events.len(), payload)
            } else {
                let words = words_of(events);
                writer::write(&table, party, root_name, root_type, mode, &words, texts, payload)
            }
        }
        Err(refusal) => {
            payload.fill(0);
            Answer::refused(refusal, Path::empty())
        }
    };
    fill_area(&answer, area)
}

/// The short call: writes a list in mode 2, and not in 6 where the table has derivations.
#[allow(clippy::too_many_arguments)] // the boundary's names and order are fixed
pub fn write_lengths(
    table: &[u8],
    party: u32,
    root_name: u32,
    root_type: u32,
    events: &[u8],
    texts: &[u8],
    payload: &mut [u8],
    area: &mut [u8],
) -> u32 {
    write(table, party, root_name, root_type, bim::MODE_ALWAYS, events, texts, payload, area)
}

/// Sets or clears a party's mark of a type in `table`; `area` is written. A table that is refused stays as it is.
pub fn set_held(table: &mut [u8], party: u32, of_type: u32, mark: u32, area: &mut [u8]) -> u32 {
    if area.len() != bim::AREA {
        area.fill(0);
        return bim::AREA_SIZE;
    }
    let set = table_words(table).and_then(|mut words| {
        table::set_held(&mut words, party, of_type, mark)?;
        Ok(words)
    });
    let answer = match set {
        Ok(words) => {
            for (bytes, word) in table.chunks_exact_mut(4).zip(words) {
                bytes.copy_from_slice(&word.to_be_bytes());
            }
            Answer::accepted(0, 0, 0, 0)
        }
        Err(refusal) => Answer::refused(refusal, Path::empty()),
    };
    fill_area(&answer, area)
}

/// A table's words. Bytes over a whole word, or too many, make the length wrong; the header stands before that.
fn table_words(bytes: &[u8]) -> Result<Vec<u32>, Refusal> {
    let whole = bytes.len() / 4;
    if bytes.len().is_multiple_of(4) && whole <= bim::MOST_TABLE_WORDS {
        return Ok(words_of(bytes));
    }
    let header = words_of(&bytes[..4 * whole.min(bim::HEADER)]);
    let word = match table::check_header(&header) {
        Ok(()) => whole,
        Err(word) => word,
    };
    Err(refusal(bim::TABLE, word))
}

/// Places stop at 2^32 - 1.
pub fn place_word(place: u64) -> u32 {
    u32::try_from(place).unwrap_or(bim::MOST_WORD)
}

/// Fills the area and gives the number.
fn fill_area(answer: &Answer, area: &mut [u8]) -> u32 {
    let words = [
        place_word(answer.place),
        answer.mode,
        answer.events as u32,
        answer.text as u32,
        answer.bits as u32,
        answer.path.names().len() as u32,
    ];
    let (head, names) = area.split_at_mut(4 * words.len());
    for (bytes, word) in head.chunks_exact_mut(4).zip(words) {
        bytes.copy_from_slice(&word.to_be_bytes());
    }
    for (bytes, name) in names.chunks_exact_mut(2).zip(answer.path.all()) {
        bytes.copy_from_slice(&name.to_be_bytes());
    }
    answer.number
}
