//! What every call gives back.

use crate::bim;

/// A refusal's number and place; the path is added where the call is answered.
#[derive(Clone, Copy, Debug, PartialEq, Eq)]
pub struct Refusal {
    /// The paper's number.
    pub number: u32,
    /// A bit, an event or a word, as the number's row in the paper says.
    pub place: u64,
}

/// The refusal `number` at `place`.
pub fn refusal(number: u32, place: usize) -> Refusal {
    Refusal { number, place: place as u64 }
}

/// The names of the open elements, outermost first.
#[derive(Clone, Copy, PartialEq, Eq)]
pub struct Path {
    names: [u16; bim::MOST_NAMES],
    count: usize,
}

impl Path {
    /// No element is open.
    pub const fn empty() -> Self {
        Path { names: [0; bim::MOST_NAMES], count: 0 }
    }

    /// A Start was stored. The open-row limit keeps the count at 64 or below.
    pub fn push(&mut self, name: u32) {
        self.names[self.count] = name as u16;
        self.count += 1;
    }

    /// An End was stored. The freed name goes back to 0, so that equal paths are equal words.
    pub fn pop(&mut self) {
        self.count -= 1;
        self.names[self.count] = 0;
    }

    /// The open names.
    pub fn names(&self) -> &[u16] {
        &self.names[..self.count]
    }

    /// All 64 names, unused ones 0.
    pub fn all(&self) -> &[u16; bim::MOST_NAMES] {
        &self.names
    }
}

impl std::fmt::Debug for Path {
    fn fmt(&self, f: &mut std::fmt::Formatter<'_>) -> std::fmt::Result {
        self.names().fmt(f)
    }
}

/// The answer of a call. On refusal all but number, place and path is 0.
#[derive(Clone, Copy, Debug, PartialEq, Eq)]
pub struct Answer {
    /// 0 on acceptance.
    pub number: u32,
    /// 0 on acceptance.
    pub place: u64,
    /// Length coding, 0, 1 or 2, and 4 more with casting.
    pub mode: u32,
    /// Events stored or used.
    pub events: usize,
    /// Text bytes stored or used.
    pub text: usize,
    /// Bits used, the mode byte included and padding not.
    pub bits: usize,
    /// Empty on acceptance.
    pub path: Path,
}

impl Answer {
    /// An acceptance.
    pub fn accepted(mode: u32, events: usize, text: usize, bits: usize) -> Self {
        Answer { number: bim::ACCEPTED, place: 0, mode, events, text, bits, path: Path::empty() }
    }

    /// A refusal.
    pub fn refused(refusal: Refusal, path: Path) -> Self {
        Answer { number: refusal.number, place: refusal.place, mode: 0, events: 0, text: 0, bits: 0, path }
    }

    /// Whether the call was accepted.
    pub fn is_accepted(&self) -> bool {
        self.number == bim::ACCEPTED
    }
}
