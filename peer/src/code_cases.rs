//! The vectors of examples/codes.txt and examples/payloads.txt as the proved program `test_cases` takes them, and the lines it
//! has to print.
//!
//! A code case is a byte that says what is asked, the number of its bytes, five words, the highest byte first, and the bytes.
//! A reading has its wall and its place in the first two words, a writing its value in the first; parameters follow.
//! A payload case is the byte 32, the party in a byte, six words (table words, payload bytes, root name, root type, event words and text
//! bytes lent), the table, and the payload.

use crate::call::{Call, Read};
use crate::vectors::case_of;
use crate::words::{big_endian, unhex};

/// What `test_cases` is asked, and what it has to print.
#[derive(Clone, Debug, PartialEq, Eq)]
pub struct CodeCase {
    /// Its bytes on standard input.
    pub input: Vec<u8>,
    /// Its lines, without the last line's end.
    pub line: String,
}

/// The case of one line of codes.txt. `None` where the line has another form, or a word that `test_cases` cannot take: a width
/// of 2^32 choices.
pub fn code_case(vector: &str) -> Option<CodeCase> {
    let (asked, answer) = vector.trim_end().split_once(" = ")?;
    let words: Vec<_> = asked.split(' ').collect();
    let answers: Vec<_> = answer.split(' ').collect();
    match words[0] {
        "width" => read(8, [0, 0, word(words[1])?, 0, 0], "-", &format!("0 {} 0 0", answers[0])),
        "utf8" => read(9, [0; 5], words[1], &format!("{} 0 0 0", answers[0])),
        name @ ("write5" | "write8" | "writerange" | "writeoccurs" | "writevalue") => written(name, &words, &answers),
        name => {
            let (number, parameters) = match name {
                "fixed" => (0, 1),
                "read5" => (1, 0),
                "strict5" => (2, 0),
                "read8" => (3, 0),
                "strict8" => (4, 0),
                "range" => (5, 2),
                "occurs" => (6, 2),
                "value" => (7, 3),
                _ => return None,
            };
            let mut asks = [word(words.get(parameters + 1)?)?, word(words.get(parameters + 2)?)?, 0, 0, 0];
            for (ask, parameter) in asks[2..].iter_mut().zip(&words[1..=parameters]) {
                *ask = word(parameter)?;
            }
            let line = match answers[..] {
                ["no", number] => format!("{number} 0 0 0"),
                // A fixed width is told by its own parameter, every other code by its answer.
                ["ok", value] => format!("0 {value} {} 0", asks[1] + asks[2]),
                ["ok", value, bits] => format!("0 {value} {} 0", asks[1] + word(bits)?),
                ["ok", value, bits, more] => format!("0 {value} {} {more}", asks[1] + word(bits)?),
                _ => return None,
            };
            read(number, asks, words.get(parameters + 3)?, &line)
        }
    }
}

/// The case of one block of payloads.txt: its answer's lines, and none of the lent bytes past list and texts that is not 0. `None` for a party
/// over a byte.
pub fn payload_case(vector: &str) -> Option<CodeCase> {
    let Call::Read(Read { table, party, root, payload, event_words, text_room }) = case_of(vector)?.call else {
        return None;
    };
    let sizes = [table.len() as u32, payload.len() as u32, root.0, root.1, event_words as u32, text_room as u32];
    let input = [vec![32, u8::try_from(party).ok()?], big_endian(&sizes), big_endian(&table), payload].concat();
    let (_, answer) = vector.split_once("\nanswer ")?;
    Some(CodeCase { input, line: format!("answer {}left 0 0", answer.strip_suffix("end\n")?) })
}

/// A word as the vectors have it: unsigned, or signed where a range has it so.
fn word(text: &str) -> Option<u32> {
    let number: i64 = text.parse().ok()?;
    u32::try_from(number).ok().or(i32::try_from(number).ok().map(|signed| signed as u32))
}

fn read(number: u8, words: [u32; 5], hex: &str, line: &str) -> Option<CodeCase> {
    let bytes = unhex(hex)?;
    let input = [vec![number, u8::try_from(bytes.len()).ok()?], big_endian(&words), bytes].concat();
    Some(CodeCase { input, line: line.to_string() })
}

/// A code is written into 8 bytes that were 0, which the line ends with.
fn written(name: &str, words: &[&str], answers: &[&str]) -> Option<CodeCase> {
    let (value, parameters) = words[1..].split_last()?;
    let number = match name {
        "write5" => 16,
        "write8" => 17,
        "writerange" => 18,
        "writeoccurs" => 19,
        _ => 20,
    };
    let mut asks = [word(value)?, 0, 0, 0, 0];
    for (ask, parameter) in asks[2..].iter_mut().zip(parameters) {
        *ask = word(parameter)?;
    }
    let line = match answers {
        ["no", number] => format!("{number} 0 0 {:016x}", 0),
        ["ok", "-"] => format!("0 {} 0 {:016x}", asks[0], 0),
        ["ok", bits] => {
            let code = u64::from_str_radix(bits, 2).ok()? << (64 - bits.len());
            format!("0 {} {} {code:016x}", asks[0], bits.len())
        }
        _ => return None,
    };
    read(number, asks, "-", &line)
}
