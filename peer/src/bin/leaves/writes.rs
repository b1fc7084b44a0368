//! Codes written: into buffers full of junk, with guard bytes on both sides, with room, just enough room, and too little.

use crate::proved::{self, Answer, OUTSIDE};
use crate::reads::{is_row, occurs_row, range_ends, simple_row};
use crate::texts;
use peer::bim;
use peer::bits::Code;
use peer::codes;
use peer::gen::edge_word;
use peer::rng::Rng;
use peer::tally::Tally;
use peer::value;

/// No code takes more, so with this room a value that its row lacks is told.
const MOST_BITS: usize = 64;

/// One round: every leaf once.
pub fn round(rng: &mut Rng, tally: &mut Tally) {
    let value = edge_word(rng);
    let width = rng.below(45) as u32;
    let low = u64::from(value) & ((1 << width) - 1);
    ask(rng, tally, "put", &[width, value], Some(Code { bits: low, width }), value, |buf, at| {
        proved::put(buf, at, width, value)
    });
    ask(rng, tally, "put5", &[value], Some(codes::write5(value)), value, |buf, at| proved::put5(buf, at, value));
    let size = codes::write5(value).width;
    tally.hold("size5", 0, proved::size5(value), size, || format!("{value}"));
    let value = rng.pick(&[0, 1, 127, 128, 16_383, 16_384, value, value >> 18, value >> 25]);
    ask(rng, tally, "put8", &[value], codes::write8(value), value, |buf, at| proved::put8(buf, at, value));
    ranges(rng, tally);
    counts(rng, tally);
    values(rng, tally);
    bytes(rng, tally);
}

fn ranges(rng: &mut Rng, tally: &mut Tally) {
    let (b, c) = range_ends(rng);
    let word = near(rng, b as u32, c as u32);
    let code = codes::write_range(b, c, word);
    let (b, c) = (b as u32, c as u32);
    size(tally, "size_range", &[b, c, word], code, proved::size_range(b, c, word));
    ask(rng, tally, "put_range", &[b, c, word], code, word, |buf, at| proved::put_range(buf, at, b, c, word));
}

fn counts(rng: &mut Rng, tally: &mut Tally) {
    let (least, most) = occurs_row(rng);
    // See reads: 65,536 to unbounded is no row.
    if least > bim::MOST_TIMES && least <= most && most == bim::UNBOUNDED {
        return;
    }
    let count = near(rng, least, most.min(bim::MOST_TIMES));
    let code = if is_row(least, most) { codes::write_occurs(least, most, count) } else { None };
    size(tally, "size_times", &[least, most, count], code, proved::size_times(least, most, count));
    ask(rng, tally, "put_times", &[least, most, count], code, count, |buf, at| {
        proved::put_times(buf, at, least, most, count)
    });
}

fn values(rng: &mut Rng, tally: &mut Tally) {
    let (kind, b, c) = simple_row(rng);
    let word = match kind {
        bim::BOOLEAN => rng.below(4) as u32,
        bim::RANGED => near(rng, b, c),
        bim::ENUMERATION => near(rng, 0, b.wrapping_sub(1)),
        bim::TEXT => near(rng, 0, bim::MOST_TEXT),
        _ => edge_word(rng),
    };
    // One word is no date.
    let code = if kind > bim::FLOAT { None } else { value::write(kind, b, c, word, 0).ok() };
    size(tally, "size_simple", &[kind, b, c, word], code, proved::size_simple(kind, b, c, word));
    ask(rng, tally, "put_simple", &[kind, b, c, word], code, word, |buf, at| {
        proved::put_simple(buf, at, kind, b, c, word)
    });
}

/// A word at an end of `least` to `most`, just past one, between them, or anywhere.
fn near(rng: &mut Rng, least: u32, most: u32) -> u32 {
    match rng.below(8) {
        0 => least,
        1 => most,
        2 => least.wrapping_sub(1),
        3 => most.wrapping_add(1),
        4 => edge_word(rng),
        _ => {
            let span = u64::from(most.wrapping_sub(least)) + 1;
            least.wrapping_add(((u64::from(rng.word()) * span) >> 32) as u32)
        }
    }
}

fn size(tally: &mut Tally, leaf: &'static str, parameters: &[u32], code: Option<Code>, answer: Answer) {
    let expected = match code {
        Some(code) => Answer::accepted(code.width, 0, 0),
        None => Answer::refused(bim::OUTSIDE_ROW),
    };
    tally.hold(leaf, expected.number, answer, expected, || format!("{parameters:?}"));
}

/// A buffer of junk with 16 guard bytes on either side.
struct Area {
    bytes: Vec<u8>,
}

impl Area {
    fn new(rng: &mut Rng, room: usize) -> Self {
        let junk = rng.pick(&[0x00, 0xff, 0xaa, 0x5c]);
        Area { bytes: (0..room + 32).map(|_| junk ^ rng.pick(&[0, 0, 0, 0x10, 0x81])).collect() }
    }

    fn lent(&mut self) -> &mut [u8] {
        let end = self.bytes.len() - 16;
        &mut self.bytes[16..end]
    }

    /// Puts the lowest `width` of `bits`, one by one.
    fn put(&mut self, at: usize, bits: u64, width: usize) {
        for index in 0..width {
            let place = at + index;
            let mask = 0x80 >> (place % 8);
            let byte = &mut self.lent()[place / 8];
            *byte = if bits >> (width - 1 - index) & 1 == 1 { *byte | mask } else { *byte & !mask };
        }
    }
}

/// Writes `value` at a place of a buffer by both, and compares all bytes.
pub fn ask(
    rng: &mut Rng,
    tally: &mut Tally,
    leaf: &'static str,
    parameters: &[u32],
    code: Option<Code>,
    value: u32,
    proved: impl Fn(&mut [u8], usize) -> Answer,
) {
    let least = code.map_or(MOST_BITS, |code| code.width as usize);
    let at = rng.below(20);
    // Just enough bytes, one too few, one more, or any number.
    let enough = (at + least).div_ceil(8);
    let room = match rng.below(6) {
        0 => rng.below(10),
        1 => enough.saturating_sub(1),
        2 => enough + 1,
        _ => enough,
    };
    // The last bit that leaves room, and the one past it.
    let at = match rng.below(4) {
        0 => (8 * room).saturating_sub(least),
        1 => (8 * room + 1).saturating_sub(least),
        _ => at,
    };
    let mut area = Area::new(rng, room);
    let mut expected = Area { bytes: area.bytes.clone() };
    let answer = proved(area.lent(), at);
    let said = match code {
        _ if at + least > 8 * room => match answer.number {
            // A value that its row lacks takes fewer bits than the most, and may be told all the same.
            bim::OUTSIDE_ROW if code.is_none() => Answer::refused(bim::OUTSIDE_ROW),
            _ => Answer::refused(OUTSIDE),
        },
        Some(code) => {
            expected.put(at, code.bits, code.width as usize);
            Answer::accepted(value, at + code.width as usize, 0)
        }
        None => Answer::refused(bim::OUTSIDE_ROW),
    };
    tally.hold(leaf, said.number, (answer, area.bytes), (said, expected.bytes), || {
        format!("{parameters:?} at {at} room {room}")
    });
}

/// A text's bytes at any place.
fn bytes(rng: &mut Rng, tally: &mut Tally) {
    let text = texts::any(rng);
    let at = rng.below(20);
    let enough = (at + 8 * text.len()).div_ceil(8);
    let room = rng.within(enough.saturating_sub(1), enough + 1);
    let mut area = Area::new(rng, room);
    let mut expected = Area { bytes: area.bytes.clone() };
    let answer = proved::put_bytes(area.lent(), at, &text);
    let said = if at + 8 * text.len() > 8 * room {
        Answer::refused(OUTSIDE)
    } else {
        for (index, byte) in text.iter().enumerate() {
            expected.put(at + 8 * index, u64::from(*byte), 8);
        }
        Answer::accepted(0, at + 8 * text.len(), 0)
    };
    tally.hold("put_bytes", said.number, (answer, area.bytes), (said, expected.bytes), || {
        format!("at {at} room {room} text {text:02x?}")
    });
}
