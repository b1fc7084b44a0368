//! What a comparison met: answers by who gave them and by number, and the differences. All comparisons count and tell them here.

use std::collections::BTreeMap;
use std::fmt::Debug;

/// The differences that are shown.
const SHOWN: usize = 20;

/// The numbers that someone can answer.
pub type Numbers = (&'static str, &'static [u32]);

/// All that a run met.
#[derive(Default)]
pub struct Tally {
    answers: BTreeMap<&'static str, BTreeMap<u32, u64>>,
    differing: u64,
    shown: Vec<String>,
}

impl Tally {
    /// Counts a case that `who` has to answer with `number`.
    pub fn count(&mut self, who: &'static str, number: u32) {
        *self.answers.entry(who).or_default().entry(number).or_default() += 1;
    }

    /// Counts a difference, and keeps what it is if it is among the first.
    pub fn differ(&mut self, what: impl FnOnce() -> String) {
        self.differing += 1;
        if self.shown.len() < SHOWN {
            self.shown.push(what());
        }
    }

    /// Counts a case, and keeps it where the two sides differ.
    pub fn hold<T: PartialEq + Debug>(
        &mut self,
        who: &'static str,
        number: u32,
        proved: T,
        peer: T,
        case: impl FnOnce() -> String,
    ) {
        self.count(who, number);
        if proved != peer {
            self.differ(|| format!("{who}: {}: proved {proved:?}, peer {peer:?}", case()));
        }
    }

    /// The differences found.
    pub fn differing(&self) -> u64 {
        self.differing
    }

    /// Who answered, in order, how often, and with which numbers how often.
    pub fn rows(&self) -> impl Iterator<Item = (&'static str, u64, String)> + '_ {
        self.answers.iter().map(|(who, numbers)| {
            let counts: Vec<_> = numbers.iter().map(|(number, count)| format!("{number}: {count}")).collect();
            (*who, numbers.values().sum(), counts.join(", "))
        })
    }

    /// Whether every one of these numbers was met; tells those that were not.
    pub fn has_met(&self, needed: &[Numbers]) -> bool {
        let mut good = true;
        for (who, numbers) in needed {
            for number in *numbers {
                if !self.answers.get(who).is_some_and(|met| met.contains_key(number)) {
                    println!("NEVER MET: {who} answering {number}");
                    good = false;
                }
            }
        }
        good
    }

    /// Tells the first differences; true where there is none.
    pub fn shows_none(&self) -> bool {
        self.shown.iter().for_each(|difference| println!("DIFFERENT: {difference}"));
        self.differing == 0
    }
}
