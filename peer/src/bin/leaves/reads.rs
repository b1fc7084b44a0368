//! Codes read: seeded bits, right and damaged, at every alignment and below every wall around their end.

use crate::proved::{self, Answer, OUTSIDE};
use crate::texts;
use peer::bim;
use peer::bits::fixed;
use peer::codes::{self, Reading, Taken};
use peer::gen::{any_bits, any_day, any_ms, edge_word, late_ms};
use peer::model::{bits5, bits_of, bytes_of, groups};
use peer::rng::Rng;
use peer::tally::Tally;
use peer::value;

/// What the peer says of a code: value, bits and the two numbers more that some codes tell.
type Said = Result<(u32, usize, [u32; 2]), u32>;

/// One round: every leaf once, each with its own bits.
pub fn round(rng: &mut Rng, tally: &mut Tally) {
    fixed_width(rng, tally);
    numbers(rng, tally);
    choices(rng, tally);
    ranges(rng, tally);
    counts(rng, tally);
    values(rng, tally);
    single(rng, tally);
}

/// Bits in a payload, with others before and behind them.
struct Pattern {
    payload: Vec<u8>,
    at: usize,
    stop: usize,
}

impl Pattern {
    fn new(rng: &mut Rng, code: &[bool]) -> Self {
        let at = rng.below(18);
        let mut bits = any_bits(rng, at);
        bits.extend(code);
        let stop = bits.len();
        let behind = rng.below(20);
        bits.extend(any_bits(rng, behind));
        let last = bits.len().next_multiple_of(8) - bits.len();
        bits.extend(any_bits(rng, last));
        Pattern { payload: bytes_of(&bits), at, stop }
    }

    /// Every wall in and around the code, of a long one those at its ends; the payload's end and one bit more.
    fn walls(&self) -> Vec<usize> {
        let size = 8 * self.payload.len();
        let most = (self.stop + 2).min(size);
        let least = self.at.saturating_sub(2);
        let mut walls: Vec<_> = (least..=most).filter(|wall| *wall < self.at + 50 || self.stop < wall + 12).collect();
        walls.extend([size, size + 1]);
        walls
    }

    /// Asks both below every wall.
    fn ask(
        &self,
        tally: &mut Tally,
        leaf: &'static str,
        parameters: &[u32],
        proved: impl Fn(&[u8], usize, usize) -> Answer,
        peer: impl Fn(&[u8], usize, usize) -> Said,
    ) {
        for wall in self.walls() {
            let answer = proved(&self.payload, wall, self.at);
            let said = if wall > 8 * self.payload.len() {
                Err(OUTSIDE)
            } else if self.at > wall {
                // The peer is never asked past a wall; by the paper no bit of the item lies below it.
                Err(bim::PAST_END)
            } else {
                peer(&self.payload, wall, self.at)
            };
            let expected = match said {
                Ok((value, bits, [more, second])) => {
                    Answer { number: 0, out: [value, (self.at + bits) as u32, more, second] }
                }
                Err(number) => Answer::refused(number),
            };
            tally.hold(leaf, expected.number, answer, expected, || {
                format!("{parameters:?} end {wall} at {} bytes {:02x?}", self.at, self.payload)
            });
        }
    }
}

/// One of these words, or now and then any.
fn pick(rng: &mut Rng, words: &[u32]) -> u32 {
    if rng.one_in(5) {
        rng.word()
    } else {
        rng.pick(words)
    }
}

/// Now and then one bit of the code is turned.
fn damaged(rng: &mut Rng, mut code: Vec<bool>) -> Vec<bool> {
    if !code.is_empty() && rng.one_in(6) {
        let at = rng.below(code.len());
        code[at] = !code[at];
    }
    code
}

/// A vluimsbf5 of `value`, now and then with more groups than it needs; or a run of ones; or noise.
fn five(rng: &mut Rng, value: u32) -> Vec<bool> {
    let least = groups(u64::from(value));
    let code = match rng.below(12) {
        0 => [vec![true; rng.within(6, 10)], any_bits(rng, 40)].concat(),
        1 => any_bits(rng, 48),
        2 | 3 => bits5(u64::from(value), rng.within(least, 8)),
        _ => bits5(u64::from(value), least),
    };
    damaged(rng, code)
}

/// A vluimsbf8, or two bytes of which the second may say that a third follows.
fn eight(rng: &mut Rng) -> Vec<bool> {
    let first = pick(rng, &[0, 1, 0x7f, 0x80, 0x81, 0xff]) & 0xff;
    let second = pick(rng, &[0, 1, 0x7f, 0x80, 0xff]) & 0xff;
    bits_of(u64::from(first << 8 | second), 16)
}

fn loose(read: Reading) -> (u32, usize, [u32; 2]) {
    (read.value, read.bits, [u32::from(read.shortest), 0])
}

fn taken(read: Taken) -> (u32, usize, [u32; 2]) {
    (read.value, read.bits, [0, 0])
}

fn fixed_width(rng: &mut Rng, tally: &mut Tally) {
    let width = rng.below(36);
    let code = any_bits(rng, width);
    let width = width as u32;
    let pattern = Pattern::new(rng, &code);
    if width > 32 {
        // No word holds so many: 13, wherever the wall is.
        for wall in pattern.walls() {
            let number = if wall > 8 * pattern.payload.len() { OUTSIDE } else { bim::TOO_LARGE };
            let answer = proved::fixed(&pattern.payload, wall, pattern.at, width);
            tally.hold("fixed", number, answer, Answer::refused(number), || format!("width {width} end {wall}"));
        }
        return;
    }
    pattern.ask(
        tally,
        "fixed",
        &[width],
        |s, end, at| proved::fixed(s, end, at, width),
        |s, end, at| fixed(s, end, at, width).map(|value| (value, width as usize, [0, 0])),
    );
}

fn numbers(rng: &mut Rng, tally: &mut Tally) {
    let value = edge_word(rng);
    let code = five(rng, value);
    let pattern = Pattern::new(rng, &code);
    pattern.ask(tally, "any5", &[], proved::any5, |s, end, at| codes::read5(s, end, at).map(loose));
    pattern.ask(tally, "vlu5", &[], proved::vlu5, |s, end, at| codes::strict5(s, end, at).map(taken));
    let most = pick(rng, &[value.wrapping_sub(1), value, value.wrapping_add(1), 4095, 65_535]);
    pattern.ask(
        tally,
        "number",
        &[most],
        |s, end, at| proved::number(s, end, at, most),
        |s, end, at| match codes::strict5(s, end, at)? {
            read if read.value > most => Err(bim::TOO_LARGE),
            read => Ok(taken(read)),
        },
    );
    let code = eight(rng);
    let pattern = Pattern::new(rng, &code);
    pattern.ask(tally, "any8", &[], proved::any8, |s, end, at| codes::read8(s, end, at).map(loose));
    pattern.ask(tally, "vlu8", &[], proved::vlu8, |s, end, at| codes::strict8(s, end, at).map(taken));
}

/// One of `choices`, or a number just past the last.
fn index(rng: &mut Rng, choices: u32) -> Vec<bool> {
    let width = codes::width(u64::from(choices)) as usize;
    let last = choices.wrapping_sub(1);
    let value = pick(rng, &[0, last, choices, choices.wrapping_add(1), u32::MAX]);
    bits_of(u64::from(value) & ((1 << width) - 1), width)
}

fn choices(rng: &mut Rng, tally: &mut Tally) {
    let choices = edge_word(rng);
    let code = index(rng, choices);
    Pattern::new(rng, &code).ask(
        tally,
        "choice",
        &[choices],
        |s, end, at| proved::choice(s, end, at, choices),
        |s, end, at| codes::read_choice(choices, s, end, at).map(taken),
    );
}

/// The two ends of a range: often at a limit, now and then the wrong way round.
pub fn range_ends(rng: &mut Rng) -> (i32, i32) {
    if rng.one_in(25) {
        return (edge_word(rng) as i32, edge_word(rng) as i32);
    }
    let span = match rng.below(3) {
        0 => rng.pick(&[65_534, 65_535, 65_536, 65_537, (1 << 31) - 1, 1 << 31, u32::MAX]),
        1 => edge_word(rng),
        _ => rng.below(300) as u32,
    };
    let least = i64::from(edge_word(rng) as i32).min(i64::from(i32::MAX) - i64::from(span)).max(i64::from(i32::MIN));
    (least as i32, (least + i64::from(span)) as i32)
}

/// How far over the least value of `span` to go: the ends, just past them, or anywhere.
fn within(rng: &mut Rng, span: u32) -> u32 {
    match rng.below(6) {
        0 => 0,
        1 => span,
        2 => span.wrapping_add(1),
        3 => edge_word(rng),
        _ => ((u64::from(rng.word()) * (u64::from(span) + 1)) >> 32) as u32,
    }
}

fn range_code(rng: &mut Rng, b: i32, c: i32) -> Vec<bool> {
    let span = (i64::from(c) - i64::from(b)).max(0) as u32;
    let above = within(rng, span);
    if span > bim::MOST_FIXED {
        return five(rng, above);
    }
    let width = codes::width(u64::from(span) + 1) as usize;
    let code = bits_of(u64::from(above) & ((1 << width) - 1), width);
    damaged(rng, code)
}

/// What a row says that no right table has: its code has no word at all, and takes no bits to say so.
fn nothing() -> Said {
    Err(bim::NO_SUCH_CODE)
}

fn ranges(rng: &mut Rng, tally: &mut Tally) {
    let (b, c) = range_ends(rng);
    let code = range_code(rng, b, c);
    Pattern::new(rng, &code).ask(
        tally,
        "range",
        &[b as u32, c as u32],
        |s, end, at| proved::range(s, end, at, b as u32, c as u32),
        |s, end, at| if b > c { nothing() } else { codes::read_range(b, c, s, end, at).map(taken) },
    );
}

/// The least and most count of an occurs row, now and then of none that a right table has.
pub fn occurs_row(rng: &mut Rng) -> (u32, u32) {
    #[rustfmt::skip]
    const ROWS: [(u32, u32); 20] = [
        (0, 1), (1, 1), (0, 2), (0, 3), (1, 2), (1, 3), (2, 2), (2, 6), (0, 7), (0, 8), (7, 8), (0, 65_534), (0, 65_535),
        (1, 65_535), (65_535, 65_535), (0, 65_536), (1, 65_536), (3, 65_536), (65_534, 65_536), (65_535, 65_536),
    ];
    match rng.below(30) {
        0 => (edge_word(rng), edge_word(rng)),
        1..=15 => rng.pick(&ROWS),
        _ => {
            let most = if rng.one_in(3) { rng.within(1, bim::UNBOUNDED as usize) } else { rng.within(1, 40) };
            (rng.below(most.min(bim::MOST_TIMES as usize) + 1) as u32, most as u32)
        }
    }
}

/// Whether a right table can have the row (document 01, particle rows). One more is left out: least 0 and most 0 is no
/// row, and both sides read it as one choice without bits.
pub fn is_row(least: u32, most: u32) -> bool {
    least <= bim::MOST_TIMES && least <= most && most <= bim::UNBOUNDED
}

fn counts(rng: &mut Rng, tally: &mut Tally) {
    let (least, most) = occurs_row(rng);
    // Both sides would count on from a least that no row can have: 65,536 to unbounded.
    if least > bim::MOST_TIMES && least <= most && most == bim::UNBOUNDED {
        return;
    }
    let span = most.wrapping_sub(least);
    let above = within(rng, span);
    let mut code = vec![];
    if least == 0 && most > 1 {
        code.push(!rng.one_in(4));
    }
    if most == bim::UNBOUNDED {
        code.extend(five(rng, above));
    } else {
        let width = codes::width(u64::from(span) + 1) as usize;
        code.extend(bits_of(u64::from(above) & ((1 << width) - 1), width));
    }
    let code = damaged(rng, code);
    Pattern::new(rng, &code).ask(
        tally,
        "times",
        &[least, most],
        |s, end, at| proved::times(s, end, at, least, most),
        |s, end, at| {
            if is_row(least, most) {
                codes::read_occurs(least, most, s, end, at).map(taken)
            } else {
                nothing()
            }
        },
    );
}

/// A simple kind with parameters, as a type row has them, now and then of none.
pub fn simple_row(rng: &mut Rng) -> (u32, u32, u32) {
    match rng.below(30) {
        0 => (rng.pick(&[9, 10, 65_536, u32::MAX]), edge_word(rng), edge_word(rng)),
        1..=8 => {
            let (b, c) = range_ends(rng);
            (bim::RANGED, b as u32, c as u32)
        }
        15..=17 => (rng.pick(&[bim::DATE_TIME, bim::DATE]), 0, 0),
        9..=14 => (bim::ENUMERATION, pick(rng, &[1, 2, 3, 5, 64, 65, 65_535, 65_536]), 0),
        _ => (rng.pick(&[bim::BOOLEAN, bim::UNSIGNED, bim::SIGNED, bim::SIGNED, bim::TEXT, bim::FLOAT]), 0, 0),
    }
}

fn value_code(rng: &mut Rng, kind: u32, b: u32, c: u32) -> Vec<bool> {
    match kind {
        bim::BOOLEAN => any_bits(rng, 1),
        bim::RANGED => range_code(rng, b as i32, c as i32),
        bim::SIGNED => {
            let magnitude = pick(rng, &[0, 1, (1 << 31) - 1, 1 << 31, (1 << 31) + 1, u32::MAX]);
            let sign = any_bits(rng, 1);
            [sign, five(rng, magnitude)].concat()
        }
        bim::ENUMERATION => index(rng, b),
        bim::TEXT => text_code(rng),
        bim::FLOAT => any_bits(rng, 32),
        bim::DATE => bits_of(any_day(rng).into(), 32),
        bim::DATE_TIME => {
            let ms = if rng.one_in(3) { late_ms(rng) } else { any_ms(rng) };
            bits_of(u64::from(any_day(rng)) << 32 | u64::from(ms), 64)
        }
        _ => {
            let value = edge_word(rng);
            five(rng, value)
        }
    }
}

/// A text with its count; now and then another count.
fn text_code(rng: &mut Rng) -> Vec<bool> {
    let text = match rng.below(400) {
        about @ 0..3 => texts::long(rng, bim::MOST_TEXT as usize - 1 + about),
        _ => texts::any(rng),
    };
    let count = match rng.below(16) {
        0 => edge_word(rng),
        1 => text.len() as u32 + 1,
        _ => text.len() as u32,
    };
    let mut code = match rng.below(8) {
        0 => five(rng, count),
        _ => bits5(u64::from(count), groups(u64::from(count))),
    };
    code.extend(text.iter().flat_map(|byte| bits_of(u64::from(*byte), 8)));
    code
}

fn values(rng: &mut Rng, tally: &mut Tally) {
    let (kind, b, c) = simple_row(rng);
    let code = value_code(rng, kind, b, c);
    Pattern::new(rng, &code).ask(
        tally,
        "simple",
        &[kind, b, c],
        |s, end, at| proved::simple(s, end, at, kind, b, c),
        |s, end, at| {
            if kind > bim::DATE || kind == bim::RANGED && b as i32 > c as i32 {
                return nothing();
            }
            value::read(kind, b, c, s, end, at).map(|read| (read.word, read.bits, [read.text as u32, read.second]))
        },
    );
}

/// One bit and one byte, up to the payload's end and past it.
fn single(rng: &mut Rng, tally: &mut Tally) {
    let payload: Vec<u8> = (0..rng.below(4)).map(|_| rng.word() as u8).collect();
    let size = 8 * payload.len();
    for at in 0..size + 10 {
        for (leaf, width, answer) in [("bit", 1, proved::bit(&payload, at)), ("byte", 8, proved::byte(&payload, at))] {
            let expected = match at {
                _ if at + width > size => Answer::refused(OUTSIDE),
                _ => match fixed(&payload, size, at, width as u32) {
                    Ok(value) => Answer::accepted(value, 0, 0),
                    Err(number) => Answer::refused(number),
                },
            };
            tally.hold(leaf, expected.number, answer, expected, || format!("at {at} bytes {payload:02x?}"));
        }
    }
}
