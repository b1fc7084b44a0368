//! The proved leaves, each as a safe function; build.rs names the archive that they are linked from.
//!
//! SAFETY, of every call below: the archive's functions are proved safe for all arguments of their types, with no
//! `requires`; a slice passes as its pointer and its length, and an answer as four words.

/// What a call answers where a wall lies past the payload, or where there is no room for what is to be written.
pub const OUTSIDE: u32 = 99;

/// A call's number and what it left: the value, the place past it, and two numbers more.
#[derive(Clone, Copy, Debug, PartialEq, Eq)]
pub struct Answer {
    /// 0 on acceptance.
    pub number: u32,
    /// All 0 on refusal.
    pub out: [u32; 4],
}

impl Answer {
    /// A refusal.
    pub fn refused(number: u32) -> Self {
        Answer { number, out: [0; 4] }
    }

    /// An acceptance.
    pub fn accepted(value: u32, place: usize, more: u32) -> Self {
        Answer { number: 0, out: [value, place as u32, more, 0] }
    }
}

/// Calls with an area for the answer that has guard words on both sides.
fn answered(call: impl FnOnce(*mut u32) -> u32) -> Answer {
    const JUNK: u32 = 0xdead_beef;
    let mut area = [JUNK; 8];
    let number = call(area[2..].as_mut_ptr());
    assert!([area[0], area[1], area[6], area[7]] == [JUNK; 4], "words beside the answer changed: {area:x?}");
    Answer { number, out: [area[2], area[3], area[4], area[5]] }
}

/// Codes read below the wall `end`.
macro_rules! reads {
    ($($name:ident = $call:ident($($word:ident),*);)*) => {
        extern "C" {
            $(fn $call(s: *const u8, count: usize, end: u32, at: u32, $($word: u32,)* out: *mut u32) -> u32;)*
        }
        $(
            pub fn $name(s: &[u8], end: usize, at: usize, $($word: u32),*) -> Answer {
                answered(|out| unsafe { $call(s.as_ptr(), s.len(), end as u32, at as u32, $($word,)* out) })
            }
        )*
    };
}

/// Codes written into a lent buffer.
macro_rules! writes {
    ($($name:ident = $call:ident($($word:ident),*);)*) => {
        extern "C" {
            $(fn $call(buf: *mut u8, count: usize, at: u32, $($word: u32,)* out: *mut u32) -> u32;)*
        }
        $(
            pub fn $name(buf: &mut [u8], at: usize, $($word: u32),*) -> Answer {
                answered(|out| unsafe { $call(buf.as_mut_ptr(), buf.len(), at as u32, $($word,)* out) })
            }
        )*
    };
}

/// Numbers of words, with an answer of four words.
macro_rules! words {
    ($($name:ident = $call:ident($($word:ident),*);)*) => {
        extern "C" {
            $(fn $call($($word: u32,)* out: *mut u32) -> u32;)*
        }
        $(
            pub fn $name($($word: u32),*) -> Answer {
                answered(|out| unsafe { $call($($word,)* out) })
            }
        )*
    };
}

/// Calls that answer by their result alone.
macro_rules! plain {
    ($($name:ident = $call:ident($($word:ident: $kind:ty),*) -> $result:ty;)*) => {
        extern "C" {
            $(fn $call($($word: $kind),*) -> $result;)*
        }
        $(
            pub fn $name($($word: $kind),*) -> $result {
                unsafe { $call($($word),*) }
            }
        )*
    };
}

reads! {
    fixed = probe_fixed(width);
    any5 = probe_any5();
    vlu5 = probe_vlu5();
    any8 = probe_any8();
    vlu8 = probe_vlu8();
    choice = probe_choice(choices);
    number = probe_number(most);
    range = probe_range(b, c);
    times = probe_times(least, most);
    simple = probe_simple(kind, b, c);
}

writes! {
    put = probe_put(width, value);
    put5 = probe_put5(value);
    put8 = probe_put8(value);
    put_range = probe_put_range(b, c, value);
    put_times = probe_put_times(least, most, value);
    put_simple = probe_put_simple(kind, b, c, value);
    put_date = probe_put_date(kind, p, q);
}

words! {
    size_range = probe_size_range(b, c, value);
    size_times = probe_size_times(least, most, value);
    size_simple = probe_size_simple(kind, b, c, value);
    date_of = probe_date_of(days);
    day_of = probe_day_of(year, month, day);
}

plain! {
    width = probe_width(choices: u32) -> u32;
    size5 = probe_size5(value: u32) -> u32;
    value = probe_value(word: u32) -> i64;
    word = probe_word(value: i64) -> u32;
    raised = probe_raised(b: u32, k: u32) -> u32;
    lowered = probe_lowered(b: u32, value: u32) -> u32;
    with_sign = probe_with_sign(negative: bool, magnitude: u32) -> u32;
}

/// What a row of a table holds: the call's number and four words.
macro_rules! rows {
    ($($name:ident = $call:ident;)*) => {
        extern "C" {
            $(fn $call(words: *const u32, count: usize, row: u32, out: *mut u32) -> u32;)*
        }
        $(
            pub fn $name(words: &[u32], row: usize) -> (u32, [u32; 4]) {
                let answer = answered(|out| unsafe { $call(words.as_ptr(), words.len(), row as u32, out) });
                (answer.number, answer.out)
            }
        )*
    };
}

rows! {
    content = probe_content;
    span = probe_span;
    attribute = probe_attribute;
    particle = probe_particle;
}

extern "C" {
    fn probe_table(words: *const u32, count: usize, place: &mut usize) -> u32;
    fn probe_table_word(words: *const u32, count: usize, at: usize) -> u32;
    fn probe_types(words: *const u32, count: usize) -> u32;
    fn probe_held(words: *const u32, count: usize, party: u32, row: u32) -> u32;
    fn probe_bit(s: *const u8, count: usize, at: u32, out: *mut u32) -> u32;
    fn probe_byte(s: *const u8, count: usize, at: u32, out: *mut u32) -> u32;
    fn probe_text_fault(s: *const u8, count: usize, at: u32, bytes: u32, out: *mut u32) -> u32;
    fn probe_utf8(s: *const u8, count: usize) -> u32;
    fn probe_put_bytes(buf: *mut u8, count: usize, at: u32, text: *const u8, text_count: usize, out: *mut u32) -> u32;
    fn probe_gap(b: u32, c: u32, by: &mut u32) -> u32;
    fn probe_magnitude(word: u32, magnitude: &mut u32) -> u32;
}

pub fn bit(s: &[u8], at: usize) -> Answer {
    answered(|out| unsafe { probe_bit(s.as_ptr(), s.len(), at as u32, out) })
}

pub fn byte(s: &[u8], at: usize) -> Answer {
    answered(|out| unsafe { probe_byte(s.as_ptr(), s.len(), at as u32, out) })
}

pub fn text_fault(s: &[u8], at: usize, bytes: usize) -> Answer {
    answered(|out| unsafe { probe_text_fault(s.as_ptr(), s.len(), at as u32, bytes as u32, out) })
}

pub fn utf8(text: &[u8]) -> u32 {
    unsafe { probe_utf8(text.as_ptr(), text.len()) }
}

pub fn put_bytes(buf: &mut [u8], at: usize, text: &[u8]) -> Answer {
    answered(|out| unsafe { probe_put_bytes(buf.as_mut_ptr(), buf.len(), at as u32, text.as_ptr(), text.len(), out) })
}

/// How far `c` lies over `b`, both signed.
pub fn gap(b: u32, c: u32) -> Option<u32> {
    let mut by = 0xdead_beef;
    let under = unsafe { probe_gap(b, c, &mut by) };
    (under == 0).then_some(by)
}

/// Whether the word is negative, and its distance from 0.
pub fn magnitude(word: u32) -> (bool, u32) {
    let mut magnitude = 0xdead_beef;
    let negative = unsafe { probe_magnitude(word, &mut magnitude) };
    (negative == 1, magnitude)
}

/// `Err` has the place of the first word at fault.
pub fn table(words: &[u32]) -> Result<(), usize> {
    let mut place = 0xdead_beef;
    match unsafe { probe_table(words.as_ptr(), words.len(), &mut place) } {
        0 => Ok(()),
        _ => Err(place),
    }
}

pub fn table_word(words: &[u32], at: usize) -> u32 {
    unsafe { probe_table_word(words.as_ptr(), words.len(), at) }
}

pub fn types(words: &[u32]) -> u32 {
    unsafe { probe_types(words.as_ptr(), words.len()) }
}

pub fn held(words: &[u32], party: u32, row: usize) -> u32 {
    unsafe { probe_held(words.as_ptr(), words.len(), party, row as u32) }
}
