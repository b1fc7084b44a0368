//! The start-up message, DecoderInit of 001, 7.2, in the first form (001:1154-1176) and the amended one (001:3310-3374): its reader and its
//! writer at the C boundary, byte for byte. What a message says are 32 words, `init`, and a list of words, `codecs`; texts are stretches,
//! a byte place and a count, in the message that was read or in the bytes that the writer is given.
//!
//! A place of the reader's is a bit, the first of an item; one of the writer's is the index of a word, in `init` and from 32 on in `codecs`.

use crate::answer::{refusal, Refusal};
use crate::bim;
use crate::codes::{strict8, write8};
use crate::host::place_word;
use crate::words::words_of;

/// The words of `init`.
pub const WORDS: usize = bim::INIT / 4;
/// Its words by what they hold; word 0 is the place.
pub const PROFILE: usize = 1;
/// The unit size code.
pub const UNIT: usize = 2;
/// How many bits are stepped over behind the flags.
pub const STEPPED: usize = 3;
/// The seven flags.
pub const FLAGS: usize = 4;
/// The first bit stepped over.
pub const FIRST_STEPPED: usize = 5;
/// How many schemas.
pub const SCHEMAS: usize = 6;
/// How many words of `codecs`.
pub const CODEC_WORDS: usize = 7;
/// Place of the reference formats; their count follows.
pub const FORMATS: usize = 8;
/// Place of the initial description; its count follows.
pub const DESCRIPTION: usize = 10;
/// The first schema's words: place and count of its URI, place and count of its hint, number of codecs.
pub const FIRST_SCHEMA: usize = 12;
/// The words of a schema.
pub const SCHEMA_WORDS: usize = 5;

/// The flags with which a message is refused.
pub const REFUSED_FLAGS: u32 = bim::ADVANCED_DECODERS_FLAG | bim::ADDITIONAL_SCHEMA_FLAG | bim::SCHEMA_UPDATES_FLAG;
/// The flags of a byte and then what is stepped over: 8 L - 7 bits behind seven flags.
pub const FLAG_BITS: u32 = 7;

/// Reads a message; `codecs` and `init` are written.
pub fn read(message: &[u8], codecs: &mut [u8], init: &mut [u8]) -> u32 {
    codecs.fill(0);
    let room = codecs.len() / 4;
    if init.len() != bim::INIT {
        init.fill(0);
        return bim::AREA_SIZE;
    }
    let mut words = [0; WORDS];
    let (number, list) = match parse(message, room, &mut words) {
        Ok(list) => (bim::ACCEPTED, list),
        Err(refusal) => {
            words = [0; WORDS];
            words[0] = place_word(refusal.place);
            (refusal.number, vec![])
        }
    };
    put_words(init, &words);
    put_words(codecs, &list);
    number
}

fn put_words(bytes: &mut [u8], words: &[u32]) {
    for (target, word) in bytes.chunks_exact_mut(4).zip(words) {
        target.copy_from_slice(&word.to_be_bytes());
    }
}

/// Fills the words, and gives those of the codecs.
fn parse(message: &[u8], room: usize, words: &mut [u32; WORDS]) -> Result<Vec<u32>, Refusal> {
    let mut rest = Rest { message, end: message.len().min(bim::MOST_MESSAGE), at: 0 };
    let mut list = List { words: vec![], room };
    words[PROFILE] = rest.number()?;

    let item = rest.at;
    let unit = u32::from(rest.bytes(item, 1)?[0]);
    if unit & 0x0f != 0x0f {
        return Err(refusal(bim::RESERVED_BITS, 8 * item));
    }
    words[UNIT] = unit >> 5;
    if words[UNIT] > bim::MOST_UNIT {
        return Err(refusal(bim::NO_SUCH_CODE, 8 * item));
    }

    let no_advanced_features = unit >> 4 & 1;
    if no_advanced_features == 0 {
        let item = rest.at;
        let length = rest.number()?;
        if length == 0 {
            return Err(refusal(bim::NO_SUCH_CODE, 8 * item));
        }
        let item = rest.at;
        let first = u32::from(rest.bytes(item, length)?[0]);
        words[STEPPED] = 8 * length - FLAG_BITS;
        words[FLAGS] = first >> 1;
        words[FIRST_STEPPED] = first & 1;
        if words[FLAGS] & REFUSED_FLAGS != 0 {
            return Err(refusal(bim::ADVANCED_FLAG, 8 * item));
        }
    }

    let item = rest.at;
    let schemas = rest.number()?;
    match schemas {
        0 => return Err(refusal(bim::NO_SCHEMAS, 8 * item)),
        1..=bim::MOST_SCHEMAS => {}
        _ => return Err(refusal(bim::MANY_SCHEMAS, 8 * item)),
    }
    words[SCHEMAS] = schemas;
    for schema in words[FIRST_SCHEMA..].chunks_exact_mut(SCHEMA_WORDS).take(schemas as usize) {
        let item = rest.at;
        let count = rest.number()?;
        if count == 0 {
            return Err(refusal(bim::NO_SUCH_CODE, 8 * item));
        }
        let [place, count] = rest.stretch(item, count)?;
        (schema[0], schema[1]) = (place, count);
        let [place, count] = rest.counted()?;
        (schema[2], schema[3]) = (place, count);
        schema[4] = rest.number()?;
        for _ in 0..schema[4] {
            codec(&mut rest, &mut list)?;
        }
    }
    words[CODEC_WORDS] = list.words.len() as u32;

    if words[FLAGS] & bim::FRAGMENT_REFERENCE_FLAG != 0 {
        let item = rest.at;
        let count = u32::from(rest.bytes(item, 1)?[0]);
        let [place, count] = rest.stretch(item, count)?;
        (words[FORMATS], words[FORMATS + 1]) = (place, count);
    }
    let [place, count] = rest.counted()?;
    (words[DESCRIPTION], words[DESCRIPTION + 1]) = (place, count);
    if rest.at < message.len() {
        return Err(refusal(bim::LEFT_OVER, 8 * rest.at));
    }
    Ok(list.words)
}

/// A codec: its URI, how many types it is for, and these.
fn codec(rest: &mut Rest<'_>, list: &mut List) -> Result<(), Refusal> {
    let item = rest.at;
    let uri = rest.counted()?;
    list.push(item, &uri)?;
    let item = rest.at;
    let types = rest.number()?;
    list.push(item, &[types])?;
    for _ in 0..types {
        let item = rest.at;
        let code = rest.number()?;
        list.push(item, &[code])?;
    }
    Ok(())
}

/// The message from a byte on, below its wall.
struct Rest<'a> {
    message: &'a [u8],
    end: usize,
    at: usize,
}

impl<'a> Rest<'a> {
    /// A vluimsbf8, an item of its own or the begin of one.
    fn number(&mut self) -> Result<u32, Refusal> {
        let place = 8 * self.at;
        let taken = strict8(self.message, 8 * self.end, place).map_err(|number| refusal(number, place))?;
        self.at += taken.bits / 8;
        Ok(taken.value)
    }

    /// So many bytes of the item that begins at byte `item`.
    fn bytes(&mut self, item: usize, count: u32) -> Result<&'a [u8], Refusal> {
        if count as usize > self.end - self.at {
            return Err(refusal(bim::PAST_END, 8 * item));
        }
        let bytes = &self.message[self.at..self.at + count as usize];
        self.at += bytes.len();
        Ok(bytes)
    }

    /// The same as a stretch.
    fn stretch(&mut self, item: usize, count: u32) -> Result<[u32; 2], Refusal> {
        let place = self.at as u32;
        self.bytes(item, count)?;
        Ok([place, count])
    }

    /// A count and its bytes, an item.
    fn counted(&mut self) -> Result<[u32; 2], Refusal> {
        let item = self.at;
        let count = self.number()?;
        self.stretch(item, count)
    }
}

/// The words of the codecs, below their room.
struct List {
    words: Vec<u32>,
    room: usize,
}

impl List {
    /// Adds the words of the item that begins at byte `item`.
    fn push(&mut self, item: usize, words: &[u32]) -> Result<(), Refusal> {
        if self.words.len() + words.len() > self.room {
            return Err(refusal(bim::EVENT_ROOM, 8 * item));
        }
        self.words.extend(words);
        Ok(())
    }
}

/// Writes a message; `message` and `area` are written.
pub fn write(init: &[u8], codecs: &[u8], given: &[u8], message: &mut [u8], area: &mut [u8]) -> u32 {
    message.fill(0);
    if area.len() != bim::INIT_AREA {
        area.fill(0);
        return bim::AREA_SIZE;
    }
    let (number, place, bytes) = match compose(init, &words_of(codecs), given, message.len()) {
        Ok(made) => {
            message[..made.len()].copy_from_slice(&made);
            (bim::ACCEPTED, 0, made.len() as u32)
        }
        Err(refusal) => (refusal.number, place_word(refusal.place), 0),
    };
    put_words(area, &[place, bytes]);
    number
}

/// The message of these words, in at most `room` bytes.
fn compose(init: &[u8], codecs: &[u32], given: &[u8], room: usize) -> Result<Vec<u8>, Refusal> {
    if init.len() != bim::INIT {
        return Err(refusal(bim::NO_READING, 0));
    }
    let words = words_of(init);
    // Places in `codecs` follow those in `init`.
    let used = words[CODEC_WORDS] as usize;
    let codecs = codecs.get(..used).ok_or(refusal(bim::NO_READING, CODEC_WORDS))?;
    let missing = refusal(bim::NO_READING, WORDS + used);
    let mut made = Made { bytes: vec![], passed: false, given, room };

    made.number(words[PROFILE], PROFILE)?;
    let (unit, stepped, flags) = (words[UNIT], words[STEPPED], words[FLAGS]);
    if unit > bim::MOST_UNIT {
        return Err(refusal(bim::OUTSIDE_ROW, UNIT));
    }
    let length = match stepped {
        0 => 0,
        _ if stepped > 8 * bim::MOST_VLU8 || (stepped + FLAG_BITS) % 8 != 0 => {
            return Err(refusal(bim::OUTSIDE_ROW, STEPPED));
        }
        _ => (stepped + FLAG_BITS) / 8,
    };
    if flags >= 1 << FLAG_BITS || length == 0 && flags != 0 {
        return Err(refusal(bim::OUTSIDE_ROW, FLAGS));
    }
    if flags & REFUSED_FLAGS != 0 {
        return Err(refusal(bim::ADVANCED_FLAG, FLAGS));
    }
    if words[FIRST_STEPPED] != 0 {
        return Err(refusal(bim::OUTSIDE_ROW, FIRST_STEPPED));
    }
    made.put(&[(unit as u8) << 5 | u8::from(length == 0) << 4 | 0x0f]);
    if length > 0 {
        made.number(length, STEPPED)?;
        made.put(&[(flags as u8) << 1]);
        made.put(&vec![0; length as usize - 1]);
    }

    let schemas = words[SCHEMAS];
    match schemas {
        0 => return Err(refusal(bim::NO_SCHEMAS, SCHEMAS)),
        1..=bim::MOST_SCHEMAS => made.number(schemas, SCHEMAS)?,
        _ => return Err(refusal(bim::MANY_SCHEMAS, SCHEMAS)),
    }
    let mut next = 0;
    for at in (FIRST_SCHEMA..).step_by(SCHEMA_WORDS).take(schemas as usize) {
        if words[at + 1] == 0 {
            return Err(refusal(bim::OUTSIDE_ROW, at + 1));
        }
        made.counted(words[at], words[at + 1], at + 1)?;
        made.counted(words[at + 2], words[at + 3], at + 3)?;
        made.number(words[at + 4], at + 4)?;
        for _ in 0..words[at + 4] {
            let &[place, count, ..] = &codecs[next..] else {
                return Err(missing);
            };
            made.counted(place, count, WORDS + next + 1)?;
            next += 2;
            let &types = codecs.get(next).ok_or(missing)?;
            made.number(types, WORDS + next)?;
            next += 1;
            for _ in 0..types {
                let &code = codecs.get(next).ok_or(missing)?;
                made.number(code, WORDS + next)?;
                next += 1;
            }
        }
    }

    let (place, count) = (words[FORMATS], words[FORMATS + 1]);
    if flags & bim::FRAGMENT_REFERENCE_FLAG != 0 {
        let count_byte = u8::try_from(count).map_err(|_| refusal(bim::OUTSIDE_ROW, FORMATS + 1))?;
        made.put(&[count_byte]);
        made.stretch(place, count, FORMATS + 1)?;
    } else if count != 0 {
        return Err(refusal(bim::OUTSIDE_ROW, FORMATS + 1));
    }
    made.counted(words[DESCRIPTION], words[DESCRIPTION + 1], DESCRIPTION + 1)?;
    if next < used {
        return Err(refusal(bim::NO_READING, WORDS + next));
    }
    if made.passed {
        return Err(refusal(bim::PAYLOAD_ROOM, 0));
    }
    Ok(made.bytes)
}

/// The message as far as it is made. Whether it passes its room is judged last.
struct Made<'a> {
    bytes: Vec<u8>,
    passed: bool,
    given: &'a [u8],
    room: usize,
}

impl Made<'_> {
    fn put(&mut self, bytes: &[u8]) {
        self.passed |= bytes.len() > self.room - self.bytes.len();
        if !self.passed {
            self.bytes.extend(bytes);
        }
    }

    /// The number that word `word` gives.
    fn number(&mut self, value: u32, word: usize) -> Result<(), Refusal> {
        let code = write8(value).ok_or(refusal(bim::OUTSIDE_ROW, word))?;
        self.put(&code.bits.to_be_bytes()[8 - code.width as usize / 8..]);
        Ok(())
    }

    /// The bytes of a stretch whose count is word `word`.
    fn stretch(&mut self, place: u32, count: u32, word: usize) -> Result<(), Refusal> {
        let (place, count) = (place as usize, count as usize);
        let given = self.given;
        self.put(given.get(place..place + count).ok_or(refusal(bim::TEXT_BYTES, word))?);
        Ok(())
    }

    /// The same behind its count.
    fn counted(&mut self, place: u32, count: u32, word: usize) -> Result<(), Refusal> {
        self.number(count, word)?;
        self.stretch(place, count, word)
    }
}
