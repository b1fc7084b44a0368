//! Texts: UTF-8 as RFC 3629 has it (shortest forms, no surrogates, nothing above U+10FFFF), and of what is below 32 only what XML 1.0 has.

use crate::bim;
use crate::bits::load64;

const ALL_TOP_BITS: u64 = 0x8080_8080_8080_8080;

/// What is wrong with a text: 0 for nothing, 16, or 25. All of it is judged for 16 before any of it is for 25.
pub fn check(text: &[u8]) -> u32 {
    check_at(text, 0, text.len())
}

/// The same for `count` bytes that begin at any bit of a payload which holds them all.
pub fn check_at(payload: &[u8], at: usize, count: usize) -> u32 {
    let mut done = 0;
    while done < count {
        let window = load64(payload, at + 8 * done);
        if count - done >= 8 && window & ALL_TOP_BITS == 0 {
            done += 8;
            continue;
        }
        match character((window >> 32) as u32, count - done) {
            Some(bytes) => done += bytes,
            None => return bim::NOT_UTF8,
        }
    }
    let byte = |index: usize| (load64(payload, at + 8 * index) >> 56) as u8;
    if (0..count).any(|index| is_control(byte(index))) {
        return bim::CONTROL;
    }
    0
}

/// A byte below 32 that is no tab, line feed or carriage return. None stands inside a longer character.
fn is_control(byte: u8) -> bool {
    byte < 32 && ![9, 10, 13].contains(&byte)
}

/// The bytes of the character that begins `window`, of which only the first `left` bytes are text.
fn character(window: u32, left: usize) -> Option<usize> {
    let [first, second, third, fourth] = window.to_be_bytes();
    let tail = |byte: u8| (0x80..=0xbf).contains(&byte);
    // The rows of RFC 3629, section 4: the second byte's bounds shut out overlong forms, surrogates and the top.
    let (bytes, good) = match first {
        0x00..=0x7f => (1, true),
        0xc2..=0xdf => (2, tail(second)),
        0xe0 => (3, (0xa0..=0xbf).contains(&second) && tail(third)),
        0xe1..=0xec | 0xee..=0xef => (3, tail(second) && tail(third)),
        0xed => (3, (0x80..=0x9f).contains(&second) && tail(third)),
        0xf0 => (4, (0x90..=0xbf).contains(&second) && tail(third) && tail(fourth)),
        0xf1..=0xf3 => (4, tail(second) && tail(third) && tail(fourth)),
        0xf4 => (4, (0x80..=0x8f).contains(&second) && tail(third) && tail(fourth)),
        _ => (1, false),
    };
    (good && bytes <= left).then_some(bytes)
}
