//! Demand 3 on the answers of the calls on trial: pairs of tables alike but for held words, and one party.

use super::bench::Bench;
use super::case::Case;
use crate::bim;
use crate::demands::{element_types, judge_pair, Pair};
use crate::gen::{self, let_go, table_and_control, table_and_padded, table_and_sample, Sample};
use crate::rng::Rng;
use crate::rows::held_word;
use crate::words::big_endian;
use std::panic::{catch_unwind, AssertUnwindSafe};

/// From so many differences on, pairs that differ are judged no more.
const ENOUGH: u64 = 20;

/// One pair: whole, odd, padded and damaged payloads, deep ones and noise, in enough room, just enough, and less.
pub fn round(bench: &mut Bench<'_>, rng: &mut Rng) {
    let party = gen::any_party(rng);
    let (kind, table, sample) = match rng.below(16) {
        0 => ("noise", gen::table(rng, party), None),
        1 => {
            let table = gen::deep_table(rng, party);
            let sample = gen::deep_sample(rng, &table, party);
            ("deep payloads", table, sample)
        }
        2..=3 => {
            let (table, sample) = nested(rng, 60);
            ("odd codes", table, Some(sample))
        }
        4..=6 => {
            let (table, sample) = table_and_padded(rng);
            ("padded lengths", table, Some(sample))
        }
        7..=8 => {
            let (table, sample) = table_and_control(rng);
            ("control characters", table, Some(sample))
        }
        _ => {
            let (table, sample) = nested(rng, 0);
            ("valid payloads", table, Some(sample))
        }
    };
    let mut case = match &sample {
        Some(sample) => Case::read_sample(&table, sample),
        None => {
            let root = (rng.below(50) as u32, rng.below(table[1] as usize) as u32);
            Case::read(&table, party, root, gen::noise(rng), bim::EVENT * rng.below(100), rng.below(40))
        }
    };
    let types = sample.map_or(vec![], |sample| element_types(&table, sample.root, &sample.events));
    let damaged = kind != "noise" && rng.one_in(4);
    if damaged {
        gen::damage_payload(rng, &mut case.inputs[1]);
        case.rooms[0] += 160;
        case.rooms[1] += 40;
    }
    let second_table = if rng.one_in(2) { table } else { let_go(rng, case.party, &table, 12) };
    let first_table = holds_less(rng, case.party, &second_table, &types);
    let room = rng.below(8);
    if room == 0 {
        case.rooms[0] = rng.below(case.rooms[0] + 20);
        case.rooms[1] = rng.below(case.rooms[1] + 4);
    }
    case.inputs[0] = big_endian(&first_table);
    if room >= 6 {
        // Room for the first, and not always for the second: the last part of the demand.
        let least = bench.ask_aside("the first alone", &case);
        if least.is_accepted() {
            let (events, texts) = (bim::EVENT * least.word(2), least.word(3));
            case.rooms[0] = rng.within(events, case.rooms[0].max(events));
            case.rooms[1] = rng.within(texts, case.rooms[1].max(texts));
        }
    }
    let kind = if damaged { "damaged payloads" } else { kind };
    let pair = judged(bench, kind, &mut case, &first_table, &second_table);
    bench.count_pair(pair);
}

/// Both readings, and what they show; `None` where that is a violation, or there were enough of them.
fn judged(
    bench: &mut Bench<'_>,
    kind: &'static str,
    case: &mut Case,
    first_table: &[u32],
    second_table: &[u32],
) -> Option<Pair> {
    let before = bench.differing();
    let first = bench.ask_aside(kind, case);
    case.inputs[0] = big_endian(second_table);
    let second = bench.ask_aside(kind, case);
    let differ = bench.differing() > before;
    if differ && before >= ENOUGH {
        return None;
    }
    let judge = || match (first.reading(), second.reading()) {
        (Some(first), Some(second)) => judge_pair([first_table, second_table], case.party, case.root, &first, &second),
        _ => Err("demand 3: an area counts more than there is".to_string()),
    };
    // Only a list that is no reading of the table stops the judge, and the peer gives none.
    let judged = if differ {
        catch_unwind(AssertUnwindSafe(judge)).unwrap_or(Err("demand 3: a list that is no reading".to_string()))
    } else {
        judge()
    };
    match judged {
        Ok(pair) => Some(pair),
        Err(what) => {
            let marks: Vec<_> = marks(first_table).map(|at| first_table[at]).collect();
            bench.hold(case, false, || format!("{what}; the first table's held marks are {marks:?}"));
            None
        }
    }
}

/// Where the held marks of a table stand.
fn marks(table: &[u32]) -> impl Iterator<Item = usize> {
    (0..table[1] as usize).map(held_word)
}

/// A table and a sample, mostly of more elements than its root.
fn nested(rng: &mut Rng, quirk: usize) -> (Vec<u32>, Sample) {
    let mut made = table_and_sample(rng, quirk);
    for _ in 0..3 {
        if made.1.events.iter().filter(|event| event[0] == bim::KIND_START).count() > 1 {
            break;
        }
        made = table_and_sample(rng, quirk);
    }
    made
}

/// The table with some of a party's marks cleared, at least one where there is any, mostly one of `types`; the others' marks may be others.
fn holds_less(rng: &mut Rng, party: u32, table: &[u32], types: &[usize]) -> Vec<u32> {
    let times = rng.within(3, 12);
    let mut less = let_go(rng, party, table, times);
    let bit = 1 << party;
    let held: Vec<_> = marks(table).filter(|&at| table[at] & bit != 0).collect();
    let wanted: Vec<_> = types.iter().map(|&of_type| held_word(of_type)).filter(|at| held.contains(at)).collect();
    if !wanted.is_empty() && !rng.one_in(4) {
        less[rng.pick(&wanted)] &= !bit;
    } else if held.iter().all(|&at| less[at] & bit != 0) && !held.is_empty() {
        less[rng.pick(&held)] &= !bit;
    }
    less
}
