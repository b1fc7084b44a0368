//! What was compared: cases by part and kind, pairs of tables, and the smallest case that differs.

use super::case::{Call, Case};
use crate::bim;
use crate::demands::Pairs;
use crate::model;
use crate::tally;
use crate::words::words_of;
use std::collections::BTreeMap;

/// All that a run met.
#[derive(Default)]
pub struct Tally {
    /// Cases by part and kind.
    kinds: BTreeMap<(&'static str, &'static str), u64>,
    /// What the pairs of tables showed of demand 3.
    pub pairs: Pairs,
    /// Accepted readings, by whether some TheLength is padded and whether there is a Blank.
    readings: [[u64; 2]; 2],
    /// Answers and differences.
    pub met: tally::Tally,
    /// What was refused of substitution, casting and dates, by the model's words for it.
    pub items: tally::Tally,
    /// The smallest case that differs.
    pub smallest: Option<Case>,
}

impl Tally {
    /// Counts a case of `kind` in `part` that the peer answers with `number`.
    pub fn count(&mut self, part: &'static str, kind: &'static str, call: Call, number: u32) {
        *self.kinds.entry((part, kind)).or_default() += 1;
        self.met.count(call.name(), number);
    }

    /// Counts an accepted reading.
    pub fn count_reading(&mut self, padded: bool, blanks: bool) {
        self.readings[usize::from(padded)][usize::from(blanks)] += 1;
    }

    /// Counts what is refused, as far as substitution, casting and dates have to do with it.
    pub fn count_item(&mut self, case: &Case, number: u32) {
        if number == bim::AREA_SIZE || !case.inputs[0].len().is_multiple_of(4) {
            return;
        }
        let words = |index: usize| words_of(&case.inputs[index]);
        let (table, (name, of_type)) = (words(0), case.root);
        let item = match case.call {
            Call::SetHeld => "",
            Call::Check => model::check_table(&table).and_then(|word| model::part(&table, word)).unwrap_or(""),
            Call::Read => {
                let (events, texts) = (case.rooms[0] / bim::EVENT, case.rooms[1]);
                model::read(&table, case.party, name, of_type, &case.inputs[1], events, texts).item
            }
            Call::Write | Call::WriteLengths => {
                let mode = case.mode_in_effect();
                model::write(&table, case.party, name, of_type, mode, &words(1), &case.inputs[2], case.rooms[0]).1
            }
        };
        if !item.is_empty() {
            self.items.count(item, number);
        }
    }

    /// Keeps a difference.
    pub fn differ(&mut self, case: &Case, what: impl FnOnce() -> String) {
        self.met.differ(what);
        if self.smallest.as_ref().is_none_or(|smallest| case.size() < smallest.size()) {
            self.smallest = Some(case.clone());
        }
    }

    /// Prints how often each call answered what.
    pub fn report_answers(&self) {
        for (call, calls, numbers) in self.met.rows() {
            println!("{call}: {calls} calls   {numbers}");
        }
        let [[identical, blanks], [shorter, padded_blanks]] = self.readings;
        println!("written back: {identical} identically, {shorter} in fewer bits; with a Blank {blanks}, {padded_blanks} padded");
    }

    /// Prints all; true where there is no difference and, unless it is a sample, every number of every call was met, and
    /// all of demand 3.
    pub fn report(&self, sample: bool) -> bool {
        let mut parts: BTreeMap<_, u64> = BTreeMap::new();
        for ((part, kind), count) in &self.kinds {
            println!("{part}: {kind}: {count}");
            *parts.entry(part).or_default() += count;
        }
        for (part, count) in parts {
            println!("{part}: {count} calls in all");
        }
        self.report_answers();
        let mut good = sample || self.met.has_met(&Call::ALL.map(|call| (call.name(), call.numbers())));
        if !sample && self.readings.as_flattened().contains(&0) {
            println!("NEVER MET: a part of demand 2");
            good = false;
        }
        println!("demand 3: {} pairs: {}", self.pairs.all(), self.pairs);
        good &= sample || self.pairs.are_whole();
        println!("{} differences", self.met.differing());
        self.met.shows_none() && good
    }
}
