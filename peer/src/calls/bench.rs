//! The bench: every call goes through `ask`, into buffers of junk between guards, and is held against the peer.

use super::case::{Case, Left};
use super::tally::Tally;
use super::{Calls, Judge};
use crate::bim;
use crate::demands::{Pair, ITEMS};
use crate::rng::Rng;
use std::hint::black_box;

/// Bytes on both sides of every buffer.
const GUARD: usize = 32;
/// What the peer's own buffers hold before a call; the other's hold seeded junk.
const DIRT: u8 = 0xdd;
/// The most tries to make a differing case smaller.
const TRIES: usize = 100_000;

/// The calls on trial, and what they answered so far.
pub struct Bench<'a> {
    calls: &'a dyn Calls,
    tally: Tally,
    junk: Rng,
    part: &'static str,
    cases: u64,
    calls_made: u64,
    /// Whether the cases are too few to meet every number.
    sample: bool,
    /// Whether every fourth refusal is looked at for substitution, casting and dates.
    items: bool,
    /// The parts before this one, and their cases.
    done: Vec<(&'static str, u64)>,
    /// The seed of the round at hand.
    round: u64,
}

impl<'a> Bench<'a> {
    /// Nothing asked yet.
    pub fn new(calls: &'a dyn Calls, seed: u64) -> Self {
        Bench {
            calls,
            tally: Tally::default(),
            junk: Rng::new(!seed),
            part: "",
            cases: 0,
            calls_made: 0,
            sample: false,
            items: false,
            done: vec![],
            round: 0,
        }
    }

    /// The cases are too few to meet every number.
    pub fn is_sample(&mut self) {
        self.sample = true;
    }

    /// Refusals of substitution, casting and dates are counted from here on.
    pub fn count_items(&mut self) {
        self.items = true;
    }

    /// Whether every refusal that substitution, casting and dates have of their own was met; tells all of them.
    pub fn items_are_whole(&self) -> bool {
        for (item, _, numbers) in self.tally.items.rows() {
            println!("refused, {item}: {numbers}");
        }
        self.tally.items.has_met(&ITEMS)
    }

    /// The cases from here on belong to `part`.
    pub fn begin_part(&mut self, part: &'static str) {
        self.end_part();
        (self.part, self.cases) = (part, 0);
    }

    /// Keeps how many cases the part at hand had.
    fn end_part(&mut self) {
        if !self.part.is_empty() {
            self.done.push((std::mem::take(&mut self.part), self.cases));
        }
    }

    /// A round of this seed begins.
    pub fn begin_round(&mut self, seed: u64) {
        self.round = seed;
    }

    /// The cases of this part: its calls, or its pairs.
    pub fn cases(&self) -> u64 {
        self.cases
    }

    /// The calls made and compared so far.
    pub fn calls(&self) -> u64 {
        self.calls_made
    }

    /// Asks for the sake of another case, and does not count it among the part's.
    pub fn ask_aside(&mut self, kind: &'static str, case: &Case) -> Left {
        let left = self.ask(kind, case);
        self.cases -= 1;
        left
    }

    /// The differences found.
    pub fn differing(&self) -> u64 {
        self.tally.met.differing()
    }

    /// Asks both, counts the case as one of `kind` and keeps a difference. Gives what the calls on trial left.
    pub fn ask(&mut self, kind: &'static str, case: &Case) -> Left {
        let (got, touched) = self.lent(case);
        let expected = on_peer(case);
        self.cases += 1;
        self.calls_made += 1;
        self.tally.count(self.part, kind, case.call, expected.number);
        if self.items && expected.number > bim::ACCEPTED && self.calls_made.is_multiple_of(4) {
            self.tally.count_item(case, expected.number);
        }
        if got != expected || touched.is_some() {
            let place = format!("{}, {kind}, round {}: {}", self.part, self.round, case.call.name());
            self.tally.differ(case, || format!("{place}: {}", difference(case, &got, &expected, touched)));
        }
        got
    }

    /// Keeps a violated property.
    pub fn hold(&mut self, case: &Case, good: bool, what: impl FnOnce() -> String) {
        if !good {
            let place = format!("{}, round {}", self.part, self.round);
            self.tally.differ(case, || format!("{place}: {}\n{}", what(), case.shown()));
        }
    }

    /// Counts an accepted reading: whether some TheLength is padded, and whether it has a Blank.
    pub fn count_reading(&mut self, padded: bool, blanks: bool) {
        self.tally.count_reading(padded, blanks);
    }

    /// Counts a pair of tables, and what it showed if it was judged.
    pub fn count_pair(&mut self, pair: Option<Pair>) {
        self.cases += 1;
        if let Some(pair) = pair {
            self.tally.pairs.count(pair);
        }
    }

    /// Asks the calls on trial; tells what they touched outside of what is theirs to write.
    fn lent(&mut self, case: &Case) -> (Left, Option<String>) {
        let mut inputs: Vec<_> = case.inputs.iter().map(|bytes| Lent::holding(&mut self.junk, bytes)).collect();
        let junk = std::cell::RefCell::new(&mut self.junk);
        let mut outputs = case.lent(
            |bytes| Lent::holding(&mut junk.borrow_mut(), bytes),
            |room| Lent::of_junk(&mut junk.borrow_mut(), room),
        );
        let number = case.ask(self.calls, &inputs, &mut outputs);
        // Whatever the call did, the buffers are looked at again: the compiler may not count on them.
        black_box((&mut inputs, &mut outputs));
        let beside = inputs.iter().chain(&outputs).any(|lent| !lent.guards_stand());
        let given = inputs.iter().zip(&case.inputs).any(|(lent, bytes)| lent.lent() != bytes);
        let touched = match (beside, given) {
            (true, _) => Some("bytes beside a buffer changed".to_string()),
            (_, true) => Some("an input changed".to_string()),
            _ => None,
        };
        (Left { number, outputs: outputs.iter().map(|lent| lent.lent().to_vec()).collect() }, touched)
    }

    /// Prints how often each call answered what.
    pub fn report_answers(&self) {
        self.tally.report_answers();
    }

    /// Prints all, the smallest differing case made smaller still; true where all is well.
    pub fn report(&mut self) -> bool {
        self.end_part();
        let good = self.tally.report(self.sample);
        for (part, cases) in &self.done {
            println!("cases, {part}: {cases}");
        }
        if let Some(case) = self.tally.smallest.take() {
            let (case, what) = self.shrink(case);
            println!("SMALLEST: {what}\n{}", case.shown());
        }
        good
    }

    /// The smallest case that still differs, as far as small steps lead, and the difference.
    fn shrink(&mut self, mut case: Case) -> (Case, String) {
        let mut tries = TRIES;
        loop {
            let smaller = case.smaller().into_iter().find(|smaller| {
                tries = tries.saturating_sub(1);
                tries > 0 && self.differs(smaller).is_some()
            });
            match smaller {
                Some(smaller) => case = smaller,
                None => break,
            }
        }
        let what = self.differs(&case).unwrap_or("no call by itself; a property of several".to_string());
        (case, what)
    }

    fn differs(&mut self, case: &Case) -> Option<String> {
        let (got, touched) = self.lent(case);
        let expected = on_peer(case);
        (got != expected || touched.is_some()).then(|| difference(case, &got, &expected, touched))
    }
}

/// What the peer leaves.
pub fn on_peer(case: &Case) -> Left {
    let mut outputs = case.lent(<[u8]>::to_vec, |room| vec![DIRT; room]);
    let number = case.ask(&Judge, &case.inputs, &mut outputs);
    Left { number, outputs }
}

/// Where two answers part.
fn difference(case: &Case, got: &Left, expected: &Left, touched: Option<String>) -> String {
    let mut text = format!("number {}, the peer's {}", got.number, expected.number);
    for ((name, got), expected) in case.call.output_names().iter().zip(&got.outputs).zip(&expected.outputs) {
        if let Some(at) = (0..got.len()).find(|&at| got[at] != expected[at]) {
            text += &format!("; {name} from byte {at} of {}: ", got.len());
            let end = got.len().min(at + 16);
            text += &format!("{:02x?}, the peer's {:02x?}", &got[at..end], &expected[at..end]);
        }
    }
    if let Some(touched) = touched {
        text += &format!("; {touched}");
    }
    text
}

/// A buffer between guards, at any address.
pub(super) struct Lent {
    bytes: Vec<u8>,
    first: usize,
    room: usize,
    /// The guards as they should stay.
    guards: Vec<u8>,
}

impl Lent {
    pub(super) fn of_junk(junk: &mut Rng, room: usize) -> Self {
        let first = GUARD + junk.below(8);
        let whole = first + room + GUARD;
        let mut bytes = Vec::with_capacity(whole + 8);
        while bytes.len() < whole {
            bytes.extend(junk.step().to_ne_bytes());
        }
        bytes.truncate(whole);
        let guards = [&bytes[..first], &bytes[first + room..]].concat();
        Lent { bytes, first, room, guards }
    }

    pub(super) fn holding(junk: &mut Rng, given: &[u8]) -> Self {
        let mut lent = Lent::of_junk(junk, given.len());
        lent.lent_mut().copy_from_slice(given);
        lent
    }

    pub(super) fn lent(&self) -> &[u8] {
        &self.bytes[self.first..self.first + self.room]
    }

    pub(super) fn lent_mut(&mut self) -> &mut [u8] {
        &mut self.bytes[self.first..self.first + self.room]
    }

    pub(super) fn guards_stand(&self) -> bool {
        let (before, after) = self.guards.split_at(self.first);
        self.bytes[..self.first] == *before && self.bytes[self.first + self.room..] == *after
    }
}

impl AsRef<[u8]> for Lent {
    fn as_ref(&self) -> &[u8] {
        self.lent()
    }
}

impl AsMut<[u8]> for Lent {
    fn as_mut(&mut self) -> &mut [u8] {
        self.lent_mut()
    }
}
