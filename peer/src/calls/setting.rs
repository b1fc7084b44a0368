//! Marks to set, and calls between which others set theirs.

use super::bench::Bench;
use super::case::{Call, Case, Left};
use super::reading::area;
use super::{reading, writing};
use crate::bim;
use crate::gen::{damage_table, let_go, table_and_sample};
use crate::rng::Rng;
use crate::rows::held_word;
use crate::trials::any_setting;
use crate::words::big_endian;

/// One seeded round: settings, and what they do to readings and writings.
pub fn round(bench: &mut Bench<'_>, rng: &mut Rng) {
    match rng.below(8) {
        0..=3 => between(bench, rng),
        4 => both_orders(bench, rng),
        5 => areas(bench, rng),
        6 => odd_tables(bench, rng),
        _ => every_mark(bench, rng),
    }
}

/// Asks, and holds *own* of what is left: no byte changes but the lowest of the type's held word, and of that the party's bit alone. A table
/// that is refused is as it was.
pub fn ask(bench: &mut Bench<'_>, kind: &'static str, case: &Case) -> Left {
    let left = bench.ask(kind, case);
    let mut expected = case.inputs[0].clone();
    if left.is_accepted() {
        let (at, bit) = (4 * held_word(case.root.1 as usize) + 3, 1_u32.wrapping_shl(case.party) as u8);
        if let Some(byte) = expected.get_mut(at) {
            *byte = if case.mode == 0 { *byte & !bit } else { *byte | bit };
        }
    }
    let good = left.outputs[0] == expected && (!left.is_accepted() || left.outputs[1] == [0; bim::AREA]);
    bench.hold(case, good, || format!("own: a setting leaves {left:02x?}"));
    left
}

/// The table as a setting leaves it.
fn after(bench: &mut Bench<'_>, kind: &'static str, table: Vec<u8>, setting: [u32; 3]) -> Vec<u8> {
    ask(bench, kind, &Case::set(table, setting)).outputs.swap_remove(0)
}

/// A reading and a writing by one party, settings by others between them, refused ones and a table that is wrong among them; then settings
/// of its own.
fn between(bench: &mut Bench<'_>, rng: &mut Rng) {
    let (whole, sample) = table_and_sample(rng, 0);
    let mut words = let_go(rng, sample.party, &whole, 4);
    if rng.one_in(8) {
        damage_table(rng, &mut words);
    }
    let mut cases = [Case::read_sample(&whole, &sample), Case::write_sample(&whole, &sample)];
    let mut table = big_endian(&words);
    let answers = |bench: &mut Bench<'_>, cases: &[Case; 2]| {
        let [read, write] = cases;
        [reading::ask(bench, "between settings", read), writing::ask(bench, "between settings", write)]
    };
    cases.iter_mut().for_each(|case| case.inputs[0].clone_from(&table));
    let before = answers(bench, &cases);
    for _ in 0..rng.within(1, 6) {
        let setting = any_setting(rng, whole[1]);
        if setting[0] != sample.party {
            table = after(bench, "by others", table, setting);
        }
    }
    cases.iter_mut().for_each(|case| case.inputs[0].clone_from(&table));
    let then = answers(bench, &cases);
    bench.hold(&cases[0], before == then, || format!("others: {before:02x?} turns into {then:02x?}"));
    for _ in 0..2 {
        let [_, of_type, mark] = any_setting(rng, whole[1]);
        table = after(bench, "its own", table, [sample.party, of_type, mark]);
    }
    cases.iter_mut().for_each(|case| case.inputs[0].clone_from(&table));
    answers(bench, &cases);
}

/// Two settings of different marks, in both orders.
fn both_orders(bench: &mut Bench<'_>, rng: &mut Rng) {
    let (table, _) = table_and_sample(rng, 0);
    let (one, mut other) = (any_setting(rng, table[1]), any_setting(rng, table[1]));
    if rng.one_in(2) {
        other[1] = one[1];
    }
    let table = big_endian(&table);
    let there = after(bench, "in both orders", table.clone(), one);
    let there = after(bench, "in both orders", there, other);
    let back = after(bench, "in both orders", table.clone(), other);
    let back = after(bench, "in both orders", back, one);
    let good = one[..2] == other[..2] || there == back;
    bench.hold(&Case::set(table, one), good, || format!("{one:?} and {other:?} do not commute"));
}

/// Areas of any size, over right and wrong input.
fn areas(bench: &mut Bench<'_>, rng: &mut Rng) {
    let (mut table, _) = table_and_sample(rng, 0);
    if rng.one_in(3) {
        damage_table(rng, &mut table);
    }
    for _ in 0..4 {
        let setting = any_setting(rng, 5);
        let case = Case { rooms: vec![area(rng)], ..Case::set(big_endian(&table), setting) };
        ask(bench, "areas of any size", &case);
    }
}

/// Tables that are wrong or no whole words; held words at their limit.
fn odd_tables(bench: &mut Bench<'_>, rng: &mut Rng) {
    let (whole, _) = table_and_sample(rng, 0);
    for _ in 0..4 {
        let mut table = whole.clone();
        if rng.one_in(2) {
            let word = held_word(rng.below(whole[1] as usize));
            table[word] = rng.pick(&[0, bim::MOST_HELD, bim::MOST_HELD + 1, bim::MOST_WORD]);
        } else {
            damage_table(rng, &mut table);
        }
        let mut table = big_endian(&table);
        if rng.one_in(4) {
            table.resize(table.len() + rng.within(1, 3), rng.word() as u8);
        }
        bench.ask("tables", &Case::check(table.clone()));
        ask(bench, "malformed tables", &Case::set(table, any_setting(rng, whole[1])));
    }
}

/// Each mark of a type by each party, one past the last too.
fn every_mark(bench: &mut Bench<'_>, rng: &mut Rng) {
    let (table, _) = table_and_sample(rng, 0);
    let of_type = rng.below(table[1] as usize + 1) as u32;
    let mut table = big_endian(&table);
    for party in 0..=bim::PARTIES {
        for mark in [0, 1, rng.word()] {
            table = after(bench, "every mark", table, [party, of_type, mark]);
        }
    }
}

/// The named cases, and their neighbours: readings and lists by every party, and settings with other areas, parties and marks.
pub fn named(bench: &mut Bench<'_>) {
    for base in super::named() {
        match base.call {
            Call::SetHeld => {
                ask(bench, "named settings", &base);
                for area in [0, bim::AREA - 1, bim::AREA + 1] {
                    ask(bench, "named settings, other areas", &Case { rooms: vec![area], ..base.clone() });
                }
                for party in 0..=bim::PARTIES {
                    for mode in [0, 1, 2, bim::MOST_WORD] {
                        ask(bench, "named settings, other marks", &Case { party, mode, ..base.clone() });
                    }
                }
            }
            Call::Read | Call::Write | Call::WriteLengths => {
                for party in [0, 1, bim::PARTIES - 1, bim::PARTIES, bim::MOST_WORD] {
                    super::ask(bench, &Case { party, ..base.clone() });
                }
            }
            Call::Check => {}
        }
    }
}
