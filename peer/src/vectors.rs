//! The vectors under examples/ as text: blocks of lines for tables, payloads and lists, one line for a code. examples/README.md
//! has their form.
//!
//! A vector is its input and the answer. `again` takes the input from a vector and gives the vector as the peer would
//! write it now, so that a vector that still holds comes back unchanged.

use crate::answer::{refusal, Answer, Path};
use crate::bim;
use crate::bits::Code;
use crate::call::{Call, Read, Set, Write};
use crate::cases::Case;
use crate::model::bytes_of;
use crate::words::{hex, unhex};
use crate::{bits, codes, message_cases, reader, shelf, table, utf8, value};

/// The vectors of a file. Between them lines that begin with `#` are for the eye.
pub fn vectors_of(file: &str) -> impl Iterator<Item = &str> {
    pieces(file).filter(|piece| is_vector(piece))
}

/// The file with every vector as the peer gives it now; `Err` is one that it cannot understand, or answers otherwise.
pub fn renewed(file: &str) -> Result<String, String> {
    // What stands in a vector by hand: the answer of a block, and of a code nothing.
    let by_hand = |vector: &str| -> Vec<String> {
        let answers =
            vector.lines().filter(|line| ["answer ", "path ", "dropped "].iter().any(|key| line.starts_with(key)));
        answers.map(str::to_string).collect()
    };
    let renew = |piece: &str| match again(piece) {
        _ if !is_vector(piece) => Ok(piece.to_string()),
        Some(now) if by_hand(&now) == by_hand(piece) => Ok(now),
        Some(now) => Err(format!("answered otherwise:\n{now}")),
        None => Err(format!("not understood:\n{piece}")),
    };
    pieces(file).map(renew).collect()
}

/// A file cut into vectors and other lines.
fn pieces(file: &str) -> impl Iterator<Item = &str> {
    let mut rest = file;
    std::iter::from_fn(move || {
        let end = if rest.starts_with("case ") { "\nend\n" } else { "\n" };
        let piece = &rest[..rest.find(end).map_or(rest.len(), |at| at + end.len())];
        rest = &rest[piece.len()..];
        (!piece.is_empty()).then_some(piece)
    })
}

fn is_vector(piece: &str) -> bool {
    !piece.starts_with('#') && piece != "\n"
}

/// The vector with the answer that the peer gives now; `None` where it cannot be understood.
pub fn again(vector: &str) -> Option<String> {
    if vector.starts_with("case ") && shelf::vectors::is_shelf(vector) {
        return shelf::vectors::again(vector);
    }
    if vector.starts_with("case ") {
        let (asked, _) = vector.split_once("\nanswer ")?;
        if let Some(message) = message_cases::case_of(vector) {
            return Some(format!("{asked}\n{}end\n", message_cases::answered(&message.call)));
        }
        return Some(format!("{}{}end\n", asked_again(asked)?, answered(&case_of(vector)?.call)));
    }
    code_line(vector.split_once(" =")?.0)
}

/// What a block asks. Where its payload is given by bits, the bytes are made of them.
fn asked_again(asked: &str) -> Option<String> {
    let Some(bits) = line_of(asked, "bits") else {
        return Some(format!("{asked}\n"));
    };
    let mut text = String::new();
    for line in asked.lines().filter(|line| !line.starts_with("payload ")) {
        text += &format!("{line}\n");
        if line.starts_with("bits ") {
            text += &format!("payload {}\n", hex(&bytes_of_bits(bits)?));
        }
    }
    Some(text)
}

/// The rest of the first line that begins with `key`.
pub(crate) fn line_of<'a>(lines: &'a str, key: &str) -> Option<&'a str> {
    lines.lines().find_map(|line| line.strip_prefix(key)?.strip_prefix(' '))
}

pub(crate) fn numbers<T: std::str::FromStr>(text: &str) -> Option<Vec<T>> {
    match text {
        "-" => Some(vec![]),
        _ => text.split(' ').map(|word| word.parse().ok()).collect(),
    }
}

/// The bytes of 0s and 1s; spaces between them are for the eye.
fn bytes_of_bits(text: &str) -> Option<Vec<u8>> {
    let bits =
        text.bytes().filter(|&byte| byte != b' ').map(|byte| matches!(byte, b'0' | b'1').then_some(byte == b'1'));
    Some(bytes_of(&bits.collect::<Option<Vec<_>>>()?))
}

/// Words in decimal, `-` for none.
pub(crate) fn decimal<T: ToString>(words: &[T]) -> String {
    if words.is_empty() {
        return "-".to_string();
    }
    words.iter().map(T::to_string).collect::<Vec<_>>().join(" ")
}

/// The case that a block holds.
pub fn case_of(block: &str) -> Option<Case> {
    // What is asked stands before the answer; keys of the answer may be the same words.
    let (asked, answer) = block.split_at(block.find("\nanswer ")? + 1);
    let line = |key: &str| line_of(asked, key);
    let words = |key: &str| numbers::<u32>(line(key)?);
    let pair = |key: &str| <[u32; 2]>::try_from(words(key)?).ok().map(|[one, two]| (one, two));
    let one = |key: &str| line(key)?.parse().ok();
    let table = words("table")?;
    // Where no party is named, party 0 asks.
    let party = match line("party") {
        Some(party) => party.parse().ok()?,
        None => 0,
    };
    let call = if let Some((event_words, text_room)) = pair("rooms") {
        let payload = match line("bits") {
            Some(bits) => bytes_of_bits(bits)?,
            None => unhex(line("payload")?)?,
        };
        let (event_words, text_room) = (event_words as usize, text_room as usize);
        Call::Read(Read { table, party, root: pair("root")?, payload, event_words, text_room })
    } else if let Some(room) = one("room") {
        let mode = match line("mode") {
            Some(mode) => Some(mode.parse().ok()?),
            None => None,
        };
        Call::Write(Write {
            table,
            party,
            root: pair("root")?,
            mode,
            events: words("words")?,
            texts: unhex(line("texts")?)?,
            room,
        })
    } else if let Some((of_type, mark)) = pair("set") {
        Call::Set(Set { table, party, of_type, mark })
    } else {
        Call::Table(table)
    };
    let mut given = numbers::<usize>(line_of(answer, "answer")?)?.into_iter();
    let mut next = || given.next().unwrap_or(0);
    let mut path = Path::empty();
    for name in line_of(answer, "path").map_or(Some(vec![]), numbers)? {
        path.push(name);
    }
    let refused = Answer::refused(refusal(next() as u32, next()), path);
    let answer = Answer { mode: next() as u32, events: next(), text: next(), bits: next(), ..refused };
    Some(Case { name: line("case")?.to_string(), call, answer })
}

/// The lines of a call's answer.
fn answered(call: &Call) -> String {
    match call {
        Call::Table(table) => match table::check(table) {
            Ok(()) => "answer 0 0\n".to_string(),
            Err(word) => format!("answer {} {word}\n", bim::TABLE),
        },
        Call::Read(Read { table, party, root, payload, event_words, text_room }) => {
            let mut events = vec![0xdddd_dddd; *event_words];
            let mut texts = vec![0xdd; *text_room];
            let answer = reader::read(table, *party, root.0, root.1, payload, &mut events, &mut texts);
            let mut lines = answer_lines(&answer);
            for event in events.chunks_exact(bim::EVENT_WORDS).take(answer.events) {
                lines += &format!("event {}\n", decimal(event));
            }
            if answer.is_accepted() {
                lines += &format!("texts {}\n", hex(&texts[..answer.text]));
            }
            lines
        }
        Call::Write(call) => {
            let mut payload = vec![0xdd; call.room];
            let answer = call.ask(&mut payload);
            let mut lines = answer_lines(&answer);
            if answer.is_accepted() {
                lines += &format!("payload {}\n", hex(&payload[..answer.bits.div_ceil(8)]));
            }
            lines
        }
        Call::Set(call) => {
            let (answer, words) = call.ask();
            let mut lines = format!("answer {} {}\n", answer.number, answer.place);
            if answer.is_accepted() {
                lines += &format!("now {}\n", decimal(&words));
            }
            lines
        }
    }
}

fn answer_lines(answer: &Answer) -> String {
    let Answer { number, place, mode, events, text, bits, path } = answer;
    let mut lines = format!("answer {number} {place} {mode} {events} {text} {bits}\n");
    if !path.names().is_empty() {
        lines += &format!("path {}\n", decimal(path.names()));
    }
    lines
}

/// A code's bits, or `no 20`.
fn written(code: Option<Code>) -> String {
    match code {
        None => format!("no {}", bim::OUTSIDE_ROW),
        Some(Code { width: 0, .. }) => "ok -".to_string(),
        Some(Code { bits, width }) => format!("ok {bits:0width$b}", width = width as usize),
    }
}

/// The line of a code, with the answer that the peer gives.
fn code_line(asked: &str) -> Option<String> {
    let (name, rest) = asked.split_once(' ')?;
    let words: Vec<_> = rest.split_whitespace().collect();
    let number = |index: usize| words.get(index)?.parse::<i64>().ok();
    // The codes that are read end with wall, place and bytes; `given` parameters stand before them.
    let place = |given: usize| {
        let payload = unhex(words.get(given + 2)?)?;
        let (end, at) = (number(given)? as usize, number(given + 1)? as usize);
        (at <= end && end <= 8 * payload.len()).then_some((payload, end, at))
    };
    let told = |result: Result<String, u32>| match result {
        Ok(text) => format!("ok {text}"),
        Err(number) => format!("no {number}"),
    };
    let loose = |read: codes::Reading| format!("{} {} {}", read.value, read.bits, u32::from(read.shortest));
    let taken = |read: codes::Taken| format!("{} {}", read.value, read.bits);
    let answer = match name {
        "width" => codes::width(number(0)? as u64).to_string(),
        "utf8" => utf8::check(&unhex(words.first()?)?).to_string(),
        "fixed" => {
            let (payload, end, at) = place(1)?;
            told(bits::fixed(&payload, end, at, number(0)? as u32).map(|value| value.to_string()))
        }
        "read5" | "read8" | "strict5" | "strict8" => {
            let (payload, end, at) = place(0)?;
            told(match name {
                "read5" => codes::read5(&payload, end, at).map(loose),
                "read8" => codes::read8(&payload, end, at).map(loose),
                "strict5" => codes::strict5(&payload, end, at).map(taken),
                _ => codes::strict8(&payload, end, at).map(taken),
            })
        }
        "range" => {
            let (payload, end, at) = place(2)?;
            let (b, c) = (number(0)? as i32, number(1)? as i32);
            told(codes::read_range(b, c, &payload, end, at).map(taken))
        }
        "occurs" => {
            let (payload, end, at) = place(2)?;
            let (least, most) = (number(0)? as u32, number(1)? as u32);
            told(codes::read_occurs(least, most, &payload, end, at).map(taken))
        }
        "value" => {
            let (payload, end, at) = place(3)?;
            let (kind, b, c) = (number(0)? as u32, number(1)? as u32, number(2)? as u32);
            told(
                value::read(kind, b, c, &payload, end, at)
                    .map(|read| format!("{} {} {}", read.word, read.bits, read.text)),
            )
        }
        "write5" => written(Some(codes::write5(number(0)? as u32))),
        "write8" => written(codes::write8(number(0)? as u32)),
        "writerange" => written(codes::write_range(number(0)? as i32, number(1)? as i32, number(2)? as u32)),
        "writeoccurs" => written(codes::write_occurs(number(0)? as u32, number(1)? as u32, number(2)? as u32)),
        "writevalue" => {
            written(value::write(number(0)? as u32, number(1)? as u32, number(2)? as u32, number(3)? as u32, 0).ok())
        }
        _ => return None,
    };
    Some(format!("{asked} = {answer}\n"))
}
