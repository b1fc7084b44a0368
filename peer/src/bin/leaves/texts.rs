//! Texts: every kind of damage and every control character, at every place and every alignment.

use crate::proved::{self, Answer, OUTSIDE};
use peer::gen::{any_bits, text_byte};
use peer::model::{bits_of, bytes_of};
use peer::rng::Rng;
use peer::tally::Tally;
use peer::utf8;

/// Characters at the ends of the ranges of RFC 3629, and beside control characters.
#[rustfmt::skip]
const CHARACTERS: [char; 19] = [
    '\0', '\t', '\n', '\r', '\u{1f}', ' ', 'a', '\u{7f}', '\u{80}', '\u{7ff}', '\u{800}', '\u{fff}', '\u{1000}', '\u{d7ff}', '\u{e000}', '\u{ffff}',
    '\u{10000}', '\u{fffff}', '\u{10ffff}',
];

/// What is no UTF-8: each begins at the end of a range that the RFC leaves out, or breaks off.
#[rustfmt::skip]
const DAMAGES: [&[u8]; 32] = [
    &[0x80], &[0xbf],
    &[0xc0, 0x80], &[0xc1, 0xbf], &[0xc2], &[0xc2, 0x7f], &[0xc2, 0xc0], &[0xdf, 0xc0],
    &[0xe0, 0x80, 0x80], &[0xe0, 0x9f, 0xbf], &[0xe0, 0xa0], &[0xe1], &[0xe1, 0x7f, 0x80], &[0xe1, 0x80, 0xc0],
    &[0xec, 0xbf], &[0xed, 0xa0, 0x80], &[0xed, 0xbf, 0xbf], &[0xee, 0x80, 0x7f], &[0xef, 0xbf],
    &[0xf0, 0x80, 0x80, 0x80], &[0xf0, 0x8f, 0xbf, 0xbf], &[0xf0, 0x90, 0x80], &[0xf1, 0x80],
    &[0xf1, 0x7f, 0x80, 0x80], &[0xf3, 0xbf, 0xbf, 0xc0], &[0xf4, 0x8f, 0xbf], &[0xf4, 0x90, 0x80, 0x80],
    &[0xf5, 0x80, 0x80, 0x80], &[0xf8, 0x88, 0x80, 0x80, 0x80], &[0xfc], &[0xfe], &[0xff],
];

/// A text of a few characters, whatever they are.
fn characters(rng: &mut Rng) -> String {
    (0..rng.below(10)).map(|_| if rng.one_in(2) { 'x' } else { rng.pick(&CHARACTERS) }).collect()
}

/// A text, right or wrong.
pub fn any(rng: &mut Rng) -> Vec<u8> {
    let mut text = characters(rng).into_bytes();
    match rng.below(4) {
        0 => text.extend(rng.pick(&DAMAGES)),
        1 if !text.is_empty() => {
            let at = rng.below(text.len());
            text[at] = rng.word() as u8;
        }
        _ => {}
    }
    text
}

/// A text of so many bytes, wrong now and then.
pub fn long(rng: &mut Rng, bytes: usize) -> Vec<u8> {
    let mut text = "\u{20ac}".repeat(bytes / 3 + 1).into_bytes();
    text.truncate(bytes / 3 * 3);
    text.resize(bytes, b'x');
    if rng.one_in(3) {
        let at = rng.below(bytes);
        text[at] = rng.word() as u8;
    }
    text
}

/// Every damage by itself, before and behind every character, at every alignment.
pub fn damages(rng: &mut Rng, tally: &mut Tally) {
    for damage in DAMAGES {
        ask(rng, tally, damage);
        for character in CHARACTERS {
            let mut buffer = [0; 4];
            let character = character.encode_utf8(&mut buffer).as_bytes();
            ask(rng, tally, character);
            ask(rng, tally, &[damage, character].concat());
            ask(rng, tally, &[character, damage].concat());
            ask(rng, tally, &[character, damage, character].concat());
        }
    }
}

/// Every byte up to a space by itself, and every control character's place in texts of up to 40 letters.
pub fn controls(rng: &mut Rng, tally: &mut Tally) {
    (0..=32).for_each(|byte| ask(rng, tally, &[byte]));
    for length in 1..=40 {
        for at in 0..length {
            let mut text = vec![b'a'; length];
            text[at] = text_byte(rng);
            ask(rng, tally, &text);
        }
    }
}

/// One seeded text.
pub fn round(rng: &mut Rng, tally: &mut Tally) {
    let text = any(rng);
    ask(rng, tally, &text);
}

/// A text as a slice, and inside a payload at every alignment.
fn ask(rng: &mut Rng, tally: &mut Tally, text: &[u8]) {
    let fault = utf8::check(text);
    tally.hold("utf8", fault, proved::utf8(text), fault, || format!("{text:02x?}"));
    for shift in 0..8 {
        let at = 8 * rng.below(3) + shift;
        let mut bits = any_bits(rng, at);
        bits.extend(text.iter().flat_map(|byte| bits_of(u64::from(*byte), 8)));
        let behind = rng.below(20);
        bits.extend(any_bits(rng, behind));
        let payload = bytes_of(&bits);
        let most = (8 * payload.len() - at) / 8;
        for count in [text.len(), rng.below(text.len() + 1), most, most + 1, u32::MAX as usize] {
            let number = if count > most { OUTSIDE } else { utf8::check_at(&payload, at, count) };
            let answer = proved::text_fault(&payload, at, count);
            tally.hold("text_fault", number, answer, Answer::refused(number), || {
                format!("at {at} count {count} bytes {payload:02x?}")
            });
        }
    }
}
