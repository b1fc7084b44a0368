//! Tables, right and damaged: the check, and of right ones every row.

use crate::proved;
use peer::bim;
use peer::call::Call;
use peer::cases;
use peer::gen::{any_party, damage_table, deep_table, edge_word, let_go, table};
use peer::rng::Rng;
use peer::table::{check, Particle, Table};
use peer::tally::Tally;

/// The named tables, every length about the smallest and the largest, and every one-word change of a small table.
pub fn named(tally: &mut Tally) {
    for case in cases::all() {
        if let Call::Table(table) = &case.call {
            ask(tally, table);
        }
    }
    for largest in cases::largest_tables() {
        ask(tally, largest);
        ask(tally, &largest[..largest.len() - 1]);
        ask(tally, &[largest, &[0]].concat());
        ask(tally, &[largest, &[7; 1000]].concat());
    }
    for table in [&cases::worked().table, &cases::cast().table] {
        for words in 0..table.len() {
            ask(tally, &table[..words]);
        }
        for at in 0..table.len() {
            for word in (0..8).chain([64, 65, 256, 257, 1024, 1025, 65_535, 65_536, 65_537, 1 << 31, u32::MAX]) {
                let mut changed = table.clone();
                changed[at] = word;
                ask(tally, &changed);
            }
        }
    }
}

/// A seeded table, and the same damaged once, twice and three times; now and then any words.
pub fn round(rng: &mut Rng, tally: &mut Tally) {
    let party = any_party(rng);
    let mut words = if rng.one_in(30) { deep_table(rng, party) } else { table(rng, party) };
    ask(tally, &words);
    ask(tally, &let_go(rng, party, &words, 3));
    for _ in 0..3 {
        if !words.is_empty() {
            damage_table(rng, &mut words);
        }
        ask(tally, &words);
    }
    if rng.one_in(4) {
        let mut words: Vec<_> = (0..rng.below(60)).map(|_| edge_word(rng)).collect();
        let header = words.len().min(rng.below(bim::HEADER + 1));
        let form = rng.pick(&[bim::FORM_PLAIN, bim::FORM_CASTS]);
        words[..header].copy_from_slice(&[form, 1, 1, 1][..header]);
        ask(tally, &words);
    }
}

fn ask(tally: &mut Tally, words: &[u32]) {
    let said = check(words);
    tally.hold("table", u32::from(said.is_err()), proved::table(words), said, || format!("{words:?}"));
    if let Ok(table) = Table::new(words) {
        rows(tally, words, &table);
    }
}

/// Every row of a right table, and a word past its end.
fn rows(tally: &mut Tally, words: &[u32], table: &Table<'_>) {
    let shown = |what: &str, row: usize| format!("{what} {row} of {words:?}");
    for at in [0, words.len() - 1, words.len(), words.len() + 1, usize::MAX] {
        let word = words.get(at).copied().unwrap_or(0);
        tally.hold("word_at", 0, proved::table_word(words, at), word, || shown("word", at));
    }
    tally.hold("types", 0, proved::types(words), table.types() as u32, || shown("types", 0));
    for row in 0..table.types() {
        let of_type = table.type_row(row);
        for party in 0..bim::PARTIES {
            let held = u32::from(of_type.held_by(party));
            tally.hold("held", held, proved::held(words, party, row), held, || shown("type", row));
        }
        let expected = match of_type.content {
            bim::EMPTY => (bim::EMPTY, [0; 4]),
            bim::SIMPLE => (bim::SIMPLE, [of_type.a, of_type.b, of_type.c, 0]),
            _ => (bim::PARTICLES, [of_type.a, 0, 0, 0]),
        };
        tally.hold("content", expected.0, proved::content(words, row), expected, || shown("type", row));
        let expected = (0, [of_type.first_attribute as u32, of_type.attributes as u32, 0, 0]);
        tally.hold("span", 0, proved::span(words, row), expected, || shown("type", row));
    }
    for row in 0..table.attributes() {
        let attribute = table.attribute_row(row);
        let of_type = table.type_row(attribute.of_type);
        let required = u32::from(attribute.required);
        let expected = (required, [attribute.name, of_type.a, of_type.b, of_type.c]);
        tally.hold("attribute", required, proved::attribute(words, row), expected, || shown("attribute", row));
    }
    for row in 0..table.particles() {
        let expected = match table.particle_row(row) {
            Particle::Element { name, of_type } => (bim::ELEMENT, [name, of_type as u32, 0, 0]),
            Particle::Sequence { first, number } => (bim::SEQUENCE, [first as u32, number as u32, 0, 0]),
            Particle::Choice { first, number } => (bim::CHOICE, [first as u32, number as u32, 0, 0]),
            Particle::Occurs { child, least, most } => (bim::OCCURS, [child as u32, least, most, 0]),
        };
        tally.hold("particle", expected.0, proved::particle(words, row), expected, || shown("particle", row));
    }
}
