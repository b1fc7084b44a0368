//! Seeded cases: tables, valid lists with their payloads, and both of them damaged.
//!
//! A sample's payload is made here from bits of the model, not by the writer, so that the two can be compared; and it
//! may carry quirks that no writer of ours makes: codes not shortest, codes that name nothing, wrong lengths.

use crate::bim;
use crate::call::{Read, Write};
use crate::demands::text_places;
use crate::model::{bits5, bits_of, bytes_of, count_bits, date_of_words, date_words, groups, value_bits, width};
use crate::padding::{lengths_are_shortest, pad};
use crate::rng::Rng;
use crate::rows::{choice, complex, element, held_word, occurs, sequence, simple, Casts, Rows, NOTHING};
use crate::table::{Particle, Table};

/// The costs from here on are as good as endless.
const ENDLESS: u64 = 3000;

/// Occurs rows worth trying, both sides of every case of the code among them.
#[rustfmt::skip]
const BOUNDS: [(u32, u32); 16] = [
    (0, 1), (0, 1), (1, 1), (0, 2), (0, 3), (1, 3), (2, 2), (2, 6), (0, 7), (0, 8), (0, bim::MOST_TIMES),
    (0, bim::UNBOUNDED), (0, bim::UNBOUNDED), (1, bim::UNBOUNDED), (3, bim::UNBOUNDED), (bim::MOST_TIMES, bim::UNBOUNDED),
];

/// Particle rows, the common ones more often.
const KINDS: [u32; 7] =
    [bim::ELEMENT, bim::ELEMENT, bim::SEQUENCE, bim::SEQUENCE, bim::CHOICE, bim::OCCURS, bim::OCCURS];

/// Simple kinds, those with parameters or texts more often.
#[rustfmt::skip]
const SIMPLE_KINDS: [u32; 11] = [
    bim::BOOLEAN, bim::RANGED, bim::RANGED, bim::UNSIGNED, bim::SIGNED, bim::ENUMERATION, bim::TEXT, bim::TEXT, bim::FLOAT,
    bim::DATE_TIME, bim::DATE,
];

/// Words that lie at some limit.
const EDGES: [u32; 28] = [
    0, 1, 2, 3, 4, 5, 6, 7, 8, 15, 16, 63, 64, 65, 256, 257, 1024, 1025, 4095, 4096, 65_535, 65_536, 65_537,
    0x1000_0000, 0x7fff_ffff, 0x8000_0000, 0xffff_fffe, 0xffff_ffff,
];

/// So many bits.
pub fn any_bits(rng: &mut Rng, count: usize) -> Vec<bool> {
    (0..count).map(|_| rng.one_in(2)).collect()
}

/// A word that is often at a limit.
pub fn edge_word(rng: &mut Rng) -> u32 {
    match rng.below(4) {
        0 => rng.word(),
        1 => rng.word() >> rng.below(32),
        _ => rng.pick(&EDGES),
    }
}

/// A day of the 2^32: any, one of our time, one at a limit of words, the first and the last few, or the last of a month and its neighbours,
/// February's above all.
pub fn any_day(rng: &mut Rng) -> u32 {
    match rng.below(8) {
        0..=1 => rng.word(),
        2 => rng.within(44_000, 88_000) as u32,
        3 => edge_word(rng),
        4 => rng.pick(&[0, 1, 43, 44, 45, (1 << 31) - 1, 1 << 31, u32::MAX - 1, u32::MAX]),
        _ => {
            let year = any_year(rng);
            let month = if rng.one_in(2) { 2 } else { rng.within(1, 12) as u32 };
            let last = (28..=31).rev().find_map(|day| day_of([year, month, day])).unwrap_or(0);
            last.wrapping_add(rng.pick(&[0, 0, 1, u32::MAX]))
        }
    }
}

/// A year that has days: of our time, at a century's turn, before and behind 9999, the last ones, or any.
fn any_year(rng: &mut Rng) -> u32 {
    match rng.below(6) {
        0 => rng.within(1859, 2100) as u32,
        1 => 100 * rng.within(19, 30) as u32,
        2 => rng.pick(&[9996, 9999, 10_000, 10_400, 11_761_076, 11_761_078]),
        3 => 400 * rng.within(5, 29_402) as u32,
        4 => 100 * rng.within(19, 117_610) as u32,
        _ => rng.within(1859, 11_761_078) as u32,
    }
}

/// The two words that a date and milliseconds would have, each field cut to its bits.
fn words_of([year, month, day]: [u32; 3], ms: u32) -> [u32; 2] {
    let low = |word: u32, bits: u32| word & ((1 << bits) - 1);
    [year << bim::MONTH_BITS | low(month, bim::MONTH_BITS), day << bim::MS_BITS | low(ms, bim::MS_BITS)]
}

fn day_of(date: [u32; 3]) -> Option<u32> {
    let [word, second] = words_of(date, 0);
    date_of_words(word, second).map(|(days, _)| days as u32)
}

/// Milliseconds of a day, its first and last among them.
pub fn any_ms(rng: &mut Rng) -> u32 {
    match rng.below(3) {
        0 => rng.pick(&[0, 0, 1, bim::DAY_MS / 2, bim::DAY_MS - 1]),
        _ => rng.below(bim::DAY_MS as usize) as u32,
    }
}

/// Milliseconds that no day has, but for the last of a day.
pub fn late_ms(rng: &mut Rng) -> u32 {
    match rng.below(3) {
        0 => rng.word(),
        1 => bim::DAY_MS + rng.below(1000) as u32,
        _ => rng.pick(&[
            bim::DAY_MS - 1,
            bim::DAY_MS,
            bim::DAY_MS + 1,
            (1 << bim::MS_BITS) - 1,
            1 << bim::MS_BITS,
            u32::MAX,
        ]),
    }
}

/// One field of a date's two words changed: mostly to what no date has.
pub fn damage_date(rng: &mut Rng, [word, second]: [u32; 2]) -> [u32; 2] {
    let (year, month) = (word >> bim::MONTH_BITS, word & ((1 << bim::MONTH_BITS) - 1));
    let (day, ms) = (second >> bim::MS_BITS, second & ((1 << bim::MS_BITS) - 1));
    match rng.below(9) {
        0 => words_of([year, rng.pick(&[0, 13, 14, 15]), day], ms),
        1 => words_of([year, rng.below(16) as u32, day], ms),
        2 => words_of([year, month, rng.pick(&[0, 29, 30, 31])], ms),
        3 => words_of([any_year(rng), 2, 29], ms),
        4 => words_of([year, month, day], late_ms(rng)),
        5 => words_of([year, month, day], any_ms(rng)),
        // About the first day and the last.
        6 => words_of([1858, rng.pick(&[10, 11, 11, 12]), rng.within(15, 18) as u32], ms),
        7 => words_of([rng.pick(&[11_761_079, 11_761_079, 11_761_080]), 12, rng.within(5, 8) as u32], ms),
        _ => words_of([edge_word(rng) >> bim::MONTH_BITS, month, day], ms),
    }
}

/// The values of a list that are dates: no other has a second word.
pub fn dates(list: &[[u32; 4]]) -> Vec<usize> {
    (0..list.len()).filter(|&at| list[at][0] == bim::KIND_VALUE && list[at][2] != 0).collect()
}

/// The first bit of an event in the payload of a list with true bit counts.
pub fn place_of(list: &[[u32; 4]], event: usize) -> usize {
    8 + list[..event].iter().map(|event| event[3] as usize).sum::<usize>()
}

/// Parameters b and c of a simple kind.
fn parameters(rng: &mut Rng, kind: u32) -> (u32, u32) {
    match kind {
        bim::RANGED => {
            let b = edge_word(rng) as i32;
            let span = match rng.below(6) {
                0 => bim::MOST_FIXED - 1 + rng.below(4) as u32,
                1 => rng.word() >> 1,
                2 => 0,
                _ => rng.below(300) as u32,
            };
            let c = b.saturating_add_unsigned(span);
            (b as u32, c as u32)
        }
        bim::ENUMERATION => match rng.below(8) {
            0 => (rng.pick(&[1, bim::MOST_VALUES - 1, bim::MOST_VALUES]), 0),
            _ => (rng.within(1, 40) as u32, 0),
        },
        _ => (0, 0),
    }
}

/// One of the eight parties.
pub fn any_party(rng: &mut Rng) -> u32 {
    rng.below(bim::PARTIES as usize) as u32
}

/// A party, right or wrong: those that a number modulo 8 would take for a right one among them.
pub fn edge_party(rng: &mut Rng) -> u32 {
    match rng.below(3) {
        0 => any_party(rng),
        1 => bim::PARTIES + any_party(rng),
        _ => edge_word(rng),
    }
}

/// A held word with this party's mark, and any of the others'.
fn marked(rng: &mut Rng, party: u32) -> u32 {
    let others = match rng.below(4) {
        0 => 0,
        1 => bim::MOST_HELD,
        _ => rng.word() & bim::MOST_HELD,
    };
    others | 1 << party
}

/// A right table, all of it held by this party; every other one has derived types and substitutes, or at least room for them.
pub fn table(rng: &mut Rng, party: u32) -> Vec<u32> {
    let types = rng.within(1, 9);
    let particles = if rng.one_in(6) { 0 } else { rng.within(1, 14) };
    let mut rows = vec![];
    for _ in 0..types {
        let content = match rng.below(10) {
            0 => bim::EMPTY,
            1..=4 if particles > 0 => bim::PARTICLES,
            _ => bim::SIMPLE,
        };
        let mut row = [marked(rng, party), content, 0, 0, 0, 0, 0];
        if content == bim::PARTICLES {
            row[4] = rng.below(particles) as u32;
        }
        if content == bim::SIMPLE {
            let kind = rng.pick(&SIMPLE_KINDS);
            let (b, c) = parameters(rng, kind);
            row[4..].copy_from_slice(&[kind, b, c]);
        }
        rows.push(row);
    }
    // Attributes need simple types without attributes; the first simple type stays so.
    let plain = rows.iter().position(|row| row[1] == bim::SIMPLE);
    let attributes = if plain.is_some() && !rng.one_in(3) { rng.within(1, 6) } else { 0 };
    for (index, row) in rows.iter_mut().enumerate() {
        if Some(index) != plain && rng.one_in(2) {
            let first = rng.within(0, attributes);
            row[2] = first as u32;
            row[3] = rng.within(0, attributes - first).min(3) as u32;
        } else {
            row[2] = rng.within(0, attributes) as u32;
        }
    }
    let simple: Vec<_> = (0..types).filter(|&index| rows[index][1] == bim::SIMPLE && rows[index][3] == 0).collect();
    let attributes = (0..attributes).map(|_| [name(rng), u32::from(rng.one_in(2)), rng.pick(&simple) as u32]).collect();
    let particles: Vec<_> = (0..particles).map(|row| particle(rng, row, particles, types)).collect();
    let casts = rng.one_in(2).then(|| casts(rng, types, &particles));
    Rows { types: rows, attributes, particles, casts }.words()
}

/// Right derived types and substitutes: pairs that overlap, entries that no pair has, and at times none at all.
fn casts(rng: &mut Rng, types: usize, particles: &[[u32; 4]]) -> Casts {
    // Any types, or round all of them: a long list of different ones is then common.
    let (round, start) = (rng.one_in(2), rng.below(types));
    let number = few(rng);
    let entry = |index| if round { (start + index) % types } else { rng.below(types) } as u32;
    let entries: Vec<_> = (0..number).map(entry).collect();
    let substitutes: Vec<_> = (0..few(rng)).map(|_| [name(rng), rng.below(types) as u32]).collect();
    let pair = |rng: &mut Rng, all: usize| {
        // Often near the first, so that there are several.
        let first = rng.within(0, all).min(rng.within(0, all));
        let count = rng.pick(&[0, 1, 1, 2, 3, 3, 5, all, all]).min(all - first);
        (first, count)
    };
    let of_type = |of_type: usize| {
        let (first, mut count) = pair(rng, entries.len());
        // Neither the type itself nor any other twice: the pair ends before.
        let among = &entries[first..first + count];
        let wrong = |at: usize| among[at] == of_type as u32 || among[..at].contains(&among[at]);
        count = (0..count).find(|&at| wrong(at)).unwrap_or(count);
        [first as u32, count as u32]
    };
    let of_types = (0..types).map(of_type).collect();
    let of_row = |row: &[u32; 4]| match row[0] {
        bim::ELEMENT => {
            let (first, count) = pair(rng, substitutes.len());
            [first as u32, count as u32]
        }
        _ => [0, 0],
    };
    let of_rows = particles.iter().map(of_row).collect();
    Casts { entries, substitutes, of_types, of_rows }
}

/// How many entries or substitutes: none, one, or some.
fn few(rng: &mut Rng) -> usize {
    match rng.below(6) {
        0 => 0,
        1 => 1,
        2 => rng.within(2, 20),
        _ => rng.within(2, 9),
    }
}

fn name(rng: &mut Rng) -> u32 {
    match rng.below(8) {
        0 => bim::MOST_NAME,
        _ => rng.below(30) as u32,
    }
}

/// A right particle row. Children lie close behind it, so that nesting is deep and rows are shared.
fn particle(rng: &mut Rng, row: usize, rows: usize, types: usize) -> [u32; 4] {
    let after = rows - row - 1;
    let kind = match after {
        0 => bim::ELEMENT,
        1 => rng.pick(&[bim::ELEMENT, bim::SEQUENCE, bim::OCCURS]),
        _ => rng.pick(&KINDS),
    };
    if kind == bim::ELEMENT {
        return element(name(rng), rng.below(types) as u32);
    }
    let least = if kind == bim::CHOICE { 2 } else { 1 };
    let first = row + 1 + rng.below((after - least + 1).min(3));
    if kind == bim::OCCURS {
        let (least, most) = rng.pick(&BOUNDS);
        return occurs(first as u32, least, most);
    }
    let number = rng.within(least, (rows - first).min(5));
    [kind, first as u32, number as u32, 0]
}

/// One word of a table changed, or its length, or its form, or as many entries as may be and more. The table is not empty.
pub fn damage_table(rng: &mut Rng, words: &mut Vec<u32>) {
    match rng.below(15) {
        14 if Table::new(words).is_ok() => damage_simple(rng, words),
        12 => words[0] = rng.pick(&[bim::FORM_PLAIN, bim::FORM_CASTS, 3]),
        13 if words[0] == bim::FORM_CASTS && Table::new(words).is_ok() => {
            let mut rows = Rows::of(words);
            if let Some(casts) = &mut rows.casts {
                let most = bim::MOST_DERIVATIONS + rng.below(2);
                if rng.one_in(2) {
                    casts.entries.resize(most, 0);
                } else {
                    casts.substitutes.resize(most, [1, 0]);
                }
            }
            *words = rows.words();
        }
        0 => {
            let length = rng.below(words.len() + 1);
            words.truncate(length);
        }
        1 => words.extend((0..rng.within(1, 9)).map(|_| 0)),
        2 => {
            let at = rng.below(words.len().min(bim::HEADER));
            words[at] = edge_word(rng);
        }
        _ => {
            let at = rng.below(words.len());
            words[at] = match rng.below(4) {
                0 => words[at].wrapping_add(1),
                1 => words[at].wrapping_sub(1),
                2 => rng.below(20) as u32,
                _ => edge_word(rng),
            };
        }
    }
}

/// The kind of a simple type changed to one of the last or the next, or a parameter to 1; nothing where there is no simple type.
fn damage_simple(rng: &mut Rng, words: &mut [u32]) {
    let simple: Vec<_> = (0..words[1] as usize).map(held_word).filter(|&at| words[at + 1] == bim::SIMPLE).collect();
    if simple.is_empty() {
        return;
    }
    let at = rng.pick(&simple);
    match rng.below(4) {
        0 => words[at + 5] = 1,
        1 => words[at + 6] = 1,
        _ => words[at + 4] = rng.pick(&[bim::FLOAT, bim::DATE_TIME, bim::DATE, bim::DATE + 1, bim::DATE + 2]),
    }
}

/// The table with some of a party's marks cleared, each with one chance in `times`; at times with others of the other parties.
pub fn let_go(rng: &mut Rng, party: u32, words: &[u32], times: usize) -> Vec<u32> {
    let mut words = words.to_vec();
    let others = rng.one_in(4);
    for of_type in 0..words[1] as usize {
        let word = &mut words[held_word(of_type)];
        if others {
            *word ^= rng.word() & bim::MOST_HELD & !(1 << party);
        }
        if rng.one_in(times) {
            *word &= !(1 << party);
        }
    }
    words
}

/// The fewest events of every type and particle row; `ENDLESS` where a list would be too long or never end.
struct Costs {
    types: Vec<u64>,
    rows: Vec<u64>,
}

impl Costs {
    fn of(table: &Table<'_>) -> Self {
        let mut costs = Costs { types: vec![ENDLESS; table.types()], rows: vec![ENDLESS; table.particles()] };
        // Each round settles at least one more row; the tables made here are small.
        for _ in 0..table.types() + table.particles() {
            for row in (0..table.particles()).rev() {
                let cost = match table.particle_row(row) {
                    // One more where it has codes.
                    Particle::Element { of_type, .. } => costs.types[of_type] + 1,
                    Particle::Sequence { first, number } => costs.rows[first..first + number].iter().sum(),
                    Particle::Choice { first, number } => 1 + costs.cheapest(first, number).1,
                    Particle::Occurs { child, least, .. } => 1 + u64::from(least) * costs.rows[child],
                };
                costs.rows[row] = cost.min(ENDLESS);
            }
            for of_type in 0..table.types() {
                let row = table.type_row(of_type);
                let attributes: u64 = (row.first_attribute..row.first_attribute + row.attributes)
                    .map(|index| 1 + u64::from(table.attribute_row(index).required))
                    .sum();
                let inner = match row.content {
                    bim::EMPTY => 0,
                    bim::SIMPLE => 1,
                    _ => costs.rows[row.a as usize],
                };
                costs.types[of_type] = (2 + attributes + inner).min(ENDLESS);
            }
        }
        costs
    }

    /// The cheapest of these rows, counted from `first`, and its cost.
    fn cheapest(&self, first: usize, number: usize) -> (usize, u64) {
        (0..number)
            .map(|branch| (branch, self.rows[first + branch]))
            .min_by_key(|&(_, cost)| cost)
            .unwrap_or((0, ENDLESS))
    }
}

/// A valid list under a table of which one party holds all, with its texts and a payload.
#[derive(Clone, Debug)]
pub struct Sample {
    /// That party.
    pub party: u32,
    /// Root name and type.
    pub root: (u32, u32),
    /// Mode.
    pub mode: u32,
    /// The list, with true bit counts where no quirk was put in.
    pub events: Vec<[u32; 4]>,
    /// The texts.
    pub texts: Vec<u8>,
    /// The payload's bits, the mode byte included.
    pub bits: Vec<bool>,
}

impl Sample {
    /// The payload.
    pub fn payload(&self) -> Vec<u8> {
        bytes_of(&self.bits)
    }

    /// Pads some of the lengths: true bit counts, in a payload that no writer of ours makes.
    pub fn pad(&mut self, rng: &mut Rng) {
        self.bits = pad(self.mode, &mut self.events, &self.bits, |length| padded_groups(rng, length));
    }

    /// Puts a control character into one of the texts, in payload and list alike, at times a byte beside it that is no UTF-8, and at times
    /// only what may stand there. False where no text has a byte. Before, the bit counts are true.
    pub fn put_control(&mut self, rng: &mut Rng, table: &[u32]) -> bool {
        let places = text_places(table, self.root, &self.events);
        let with_bytes: Vec<_> = (0..places.len()).filter(|&text| places[text].1 > 0).collect();
        if with_bytes.is_empty() {
            return false;
        }
        let text = rng.pick(&with_bytes);
        let (place, bytes) = places[text];
        let first: usize = places[..text].iter().map(|place| place.1).sum();
        // Mostly in place of a letter: inside a longer character it is no UTF-8.
        let letters: Vec<_> = (0..bytes).filter(|&at| self.texts[first + at] < 0x80).collect();
        let at = if letters.is_empty() || rng.one_in(6) { rng.below(bytes) } else { end_or_any(rng, &letters) };
        let mut put = |at: usize, byte: u8| {
            self.texts[first + at] = byte;
            self.bits.splice(place + 8 * at..place + 8 * at + 8, bits_of(byte.into(), 8));
        };
        put(at, text_byte(rng));
        if rng.one_in(6) {
            put(rng.below(bytes), rng.pick(&[0x80, 0xff, 0xc2]));
        }
        true
    }

    /// Its reading, with so much room.
    pub fn reading(&self, table: &[u32], event_words: usize, text_room: usize) -> Read {
        let (party, root, payload) = (self.party, self.root, self.payload());
        Read { table: table.to_vec(), party, root, payload, event_words, text_room }
    }

    /// Its writing, with so much room over what its payload takes.
    pub fn writing(&self, table: &[u32], over: usize) -> Write {
        Write {
            table: table.to_vec(),
            party: self.party,
            root: self.root,
            mode: Some(self.mode),
            events: self.events.concat(),
            texts: self.texts.clone(),
            room: self.bits.len().div_ceil(8) + over,
        }
    }
}

/// A right table, all of it held by this party, whose root, type 0, nests about as many rows as may be open, of every kind that nests.
pub fn deep_table(rng: &mut Rng, party: u32) -> Vec<u32> {
    let depth = rng.within(58, 70);
    let plain = rng.pick(&[NOTHING, simple(bim::BOOLEAN, 0, 0)]);
    let mut rows = Rows { types: vec![complex(0, 0, 0), plain], ..Rows::default() };
    for row in 0..depth as u32 {
        let next = row + 1;
        let particle = match rng.below(6) {
            0 => sequence(next, 1),
            1 => choice(next, 2),
            2 => occurs(next, 1, 1),
            3 => occurs(next, rng.below(2) as u32, rng.pick(&[1, 2, bim::UNBOUNDED])),
            _ => {
                rows.types.push(complex(0, 0, next));
                element(name(rng), rows.types.len() as u32 - 1)
            }
        };
        rows.particles.push(particle);
    }
    // Two elements end the chain, since its last row may be a choice.
    rows.particles.extend([element(2, 1), element(3, 1)]);
    rows.types.iter_mut().for_each(|row| row[0] = marked(rng, party));
    rows.casts = rng.one_in(4).then(|| casts(rng, rows.types.len(), &rows.particles));
    rows.words()
}

/// A table that has lists, and a sample of them; every third one is sought among those with codes.
pub fn table_and_sample(rng: &mut Rng, quirk: usize) -> (Vec<u32>, Sample) {
    let mut tries = if rng.one_in(3) { 6 } else { 0 };
    let party = any_party(rng);
    loop {
        let table = table(rng, party);
        if let Some(sample) = sample(rng, &table, party, quirk) {
            if tries == 0 || sample.events.iter().any(|event| event[0] == bim::KIND_CAST) {
                return (table, sample);
            }
            tries -= 1;
        }
    }
}

/// A table and a sample without quirks, but some of its lengths are padded.
pub fn table_and_padded(rng: &mut Rng) -> (Vec<u32>, Sample) {
    loop {
        let (table, mut sample) = table_and_sample(rng, 0);
        sample.pad(rng);
        if !lengths_are_shortest(sample.mode, &sample.events) {
            return (table, sample);
        }
    }
}

/// A table and a sample without quirks, but for a byte put into a text of it.
pub fn table_and_control(rng: &mut Rng) -> (Vec<u32>, Sample) {
    loop {
        let (table, mut sample) = if rng.one_in(4) { table_and_padded(rng) } else { table_and_sample(rng, 0) };
        if sample.put_control(rng, &table) {
            return (table, sample);
        }
    }
}

/// A table and a sample without quirks that has a date, whatever else it has.
pub fn table_and_dates(rng: &mut Rng) -> (Vec<u32>, Sample) {
    loop {
        let (table, sample) = if rng.one_in(6) { table_and_padded(rng) } else { table_and_sample(rng, 0) };
        if !dates(&sample.events).is_empty() {
            return (table, sample);
        }
    }
}

/// A control character, or at times one of the three that a text may have, or what lies beside them.
pub fn text_byte(rng: &mut Rng) -> u8 {
    match rng.below(8) {
        0 => rng.pick(&[9, 10, 13, 32, 127]),
        1 => rng.below(32) as u8,
        _ => rng.pick(&[0, 7, 8, 11, 12, 14, 27, 31]),
    }
}

/// One of these, the first and the last more often.
fn end_or_any(rng: &mut Rng, all: &[usize]) -> usize {
    match rng.below(4) {
        0 => all[0],
        1 => all[all.len() - 1],
        _ => rng.pick(all),
    }
}

/// The bits of all heads in the payload of a list with true bit counts.
pub fn heads(list: &[[u32; 4]]) -> Vec<usize> {
    let mut at = 8;
    let mut heads = vec![];
    for event in list {
        let next = at + event[3] as usize;
        if event[0] == bim::KIND_START {
            heads.extend(at..next);
        }
        at = next;
    }
    heads
}

/// As many groups as `value` needs, or, every other time, one more, any number up to eight, or eight.
pub fn padded_groups(rng: &mut Rng, value: u64) -> usize {
    let least = groups(value);
    match rng.below(6) {
        0 => (least + 1).min(8),
        1 => rng.within(least, 8),
        2 => 8,
        _ => least,
    }
}

/// A sample under a deep table, which may open more rows than are allowed.
pub fn deep_sample(rng: &mut Rng, words: &[u32], party: u32) -> Option<Sample> {
    let root = (name(rng), 0);
    sample_of(rng, words, party, root, 0, 80)
}

/// A sample under a right table, with a quirk about once in `quirk` codes (0 for none). `None` where the table has no
/// list that is short and shallow enough.
fn sample(rng: &mut Rng, words: &[u32], party: u32, quirk: usize) -> Option<Sample> {
    let table = Table::new(words).ok()?;
    let costs = Costs::of(&table);
    let able: Vec<_> = (0..table.types()).filter(|&of_type| costs.types[of_type] < 400).collect();
    if able.is_empty() {
        return None;
    }
    let root = (name(rng), rng.pick(&able) as u32);
    sample_of(rng, words, party, root, quirk, 64)
}

/// A sample of one root, opening at most `open` rows.
fn sample_of(rng: &mut Rng, words: &[u32], party: u32, root: (u32, u32), quirk: usize, open: usize) -> Option<Sample> {
    let table = Table::new(words).ok()?;
    let costs = Costs::of(&table);
    let mut mode = rng.below(3) as u32;
    if table.derivations() > 0 && !rng.one_in(4) {
        mode += bim::CASTING;
    }
    let budget = if rng.one_in(20) { 400 } else { rng.within(0, 60) as u64 };
    let mut maker = Maker { table, costs, rng, mode, budget, quirk, events: vec![], texts: vec![] };
    let body = maker.element(None, root.0, root.1 as usize, open)?;
    let mut bits = bits_of(mode_byte(mode).into(), 8);
    bits.extend(body);
    Some(Sample { party, root, mode, events: maker.events, texts: maker.texts, bits })
}

/// The byte of a mode that there is.
fn mode_byte(mode: u32) -> u8 {
    bim::MODES.iter().find(|(number, _)| *number == mode).map_or(0, |(_, byte)| *byte)
}

struct Maker<'a> {
    table: Table<'a>,
    costs: Costs,
    rng: &'a mut Rng,
    mode: u32,
    /// Events that may be spent beyond the cheapest list.
    budget: u64,
    quirk: usize,
    events: Vec<[u32; 4]>,
    texts: Vec<u8>,
}

impl Maker<'_> {
    /// Whether the code at hand shall be odd.
    fn odd(&mut self) -> bool {
        self.quirk > 0 && self.rng.one_in(self.quirk)
    }

    /// vluimsbf5 of `value`, at times too long or too large.
    fn number(&mut self, value: u64) -> Vec<bool> {
        if !self.odd() {
            return bits5(value, groups(value));
        }
        match self.rng.below(4) {
            0 => vec![true; self.rng.within(5, 12)],
            1 => {
                let value = u64::from(edge_word(self.rng));
                bits5(value, groups(value))
            }
            _ => bits5(value, self.rng.within(groups(value), 8)),
        }
    }

    fn push(&mut self, kind: u32, p: u32, q: u32, bits: &[bool]) {
        self.events.push([kind, p, q, bits.len() as u32]);
    }

    fn element(&mut self, particle: Option<usize>, name: u32, of_type: usize, open: usize) -> Option<Vec<bool>> {
        let open = open.checked_sub(1)?;
        let index = self.events.len();
        let lengths = self.mode % bim::CASTING;
        let has_length = lengths == bim::MODE_ALWAYS || (lengths == bim::MODE_OPTIONAL && !self.rng.one_in(3));
        self.events.push([bim::KIND_START, name, u32::from(has_length), 0]);
        let (of_type, mut body) = match particle {
            Some(row) => self.codes(row, of_type),
            None => (of_type, vec![]),
        };
        let row = self.table.type_row(of_type);
        for attribute in row.first_attribute..row.first_attribute + row.attributes {
            let attribute = self.table.attribute_row(attribute);
            let present = attribute.required || self.rng.one_in(2);
            let flag = if attribute.required { vec![] } else { vec![present] };
            self.push(bim::KIND_ATTRIBUTE, attribute.name, u32::from(present), &flag);
            body.extend(flag);
            if present {
                body.extend(self.value(attribute.of_type));
            }
        }
        match row.content {
            bim::EMPTY => {}
            bim::SIMPLE => body.extend(self.value(of_type)),
            _ => body.extend(self.particle(row.a as usize, open)?),
        }
        self.events.push([bim::KIND_END, 0, 0, 0]);
        let mut head = vec![];
        if lengths == bim::MODE_OPTIONAL {
            head.push(has_length);
        }
        if has_length {
            let mut length = body.len() as u64;
            if self.odd() {
                let shift = self.rng.within(1, 9) as u64;
                length = if self.rng.one_in(2) { length + shift } else { length.saturating_sub(shift) };
            }
            head.extend(self.number(length));
        }
        self.events[index][3] = head.len() as u32;
        head.extend(body);
        Some(head)
    }

    /// A substitute, where its list may become so much longer, and a cast likewise; gives the effective type and the codes.
    fn codes(&mut self, row: usize, own: usize) -> (usize, Vec<bool>) {
        let mut bits = vec![];
        let substitutes: Vec<_> = self.table.substitutes(row).iter().map(|pair| pair[1] as usize).collect();
        let (default, substitute) = self.one_of(own, &substitutes, &mut bits);
        let casting = self.mode >= bim::CASTING;
        let derived: Vec<_> = self.table.derived(default).iter().filter(|_| casting).map(|&one| one as usize).collect();
        let (of_type, _) = self.one_of(default, &derived, &mut bits);
        if !bits.is_empty() {
            self.push(bim::KIND_CAST, of_type as u32, substitute, &bits);
        }
        (of_type, bits)
    }

    /// One of these types, or the default, with its number; the code that says so, at times one that names nothing.
    fn one_of(&mut self, default: usize, types: &[usize], bits: &mut Vec<bool>) -> (usize, u32) {
        if types.is_empty() {
            return (default, 0);
        }
        let which = self.rng.below(types.len());
        let extra = self.costs.types[types[which]].saturating_sub(self.costs.types[default]);
        let taken = !self.rng.one_in(3) && self.spend(extra);
        bits.push(taken);
        if !taken {
            return (default, 0);
        }
        let size = width(types.len() as i64);
        let code = if self.odd() || self.odd() { self.rng.pick(&[types.len(), usize::MAX]) } else { which };
        bits.extend(bits_of(code as u64, size));
        (types[which], which as u32 + 1)
    }

    /// A value word that its row has, and its bits.
    fn value(&mut self, of_type: usize) -> Vec<bool> {
        let row = self.table.type_row(of_type);
        let (b, c) = (i64::from(row.b), i64::from(row.c));
        if row.a == bim::TEXT {
            return self.text();
        }
        if matches!(row.a, bim::DATE_TIME | bim::DATE) {
            return self.date(row.a);
        }
        let word = match row.a {
            bim::BOOLEAN => self.rng.below(2) as u32,
            bim::RANGED => {
                let (low, high) = (i64::from(row.b as i32), i64::from(row.c as i32));
                let value = match self.rng.below(4) {
                    0 => low,
                    1 => high,
                    _ => low + self.rng.below((high - low + 1) as usize) as i64,
                };
                value as i32 as u32
            }
            bim::ENUMERATION => match self.rng.below(3) {
                0 => row.b - 1,
                _ => self.rng.below(row.b as usize) as u32,
            },
            _ => edge_word(self.rng),
        };
        let mut bits = value_bits(row.a.into(), b, c, [word, 0]).unwrap_or_default();
        if self.odd() {
            bits = match row.a {
                bim::UNSIGNED => self.number(word.into()),
                bim::SIGNED => {
                    // Minus zero, magnitudes past their limits, and codes that are not shortest.
                    let magnitude = self.rng.pick(&[0, 0, 1, 1 << 31, (1 << 31) + 1]);
                    let mut bits = vec![self.rng.one_in(2)];
                    bits.extend(self.number(magnitude));
                    bits
                }
                bim::RANGED if bits.len() != width(i64::from(row.c as i32) - i64::from(row.b as i32) + 1) => {
                    let above = edge_word(self.rng);
                    self.number(above.into())
                }
                // All ones names nothing wherever the choices are no power of two.
                _ => vec![true; bits.len()],
            };
        }
        self.push(bim::KIND_VALUE, word, 0, &bits);
        bits
    }

    /// A day, and of a dateTime milliseconds, at times as many as no day has.
    fn date(&mut self, kind: u32) -> Vec<bool> {
        let days = any_day(self.rng);
        let ms = if kind == bim::DATE_TIME { any_ms(self.rng) } else { 0 };
        let [word, second] = date_words(days.into(), ms.into());
        let mut bits = value_bits(kind.into(), 0, 0, [word, second]).unwrap_or_default();
        if kind == bim::DATE_TIME && self.odd() {
            bits.truncate(32);
            bits.extend(bits_of(late_ms(self.rng).into(), 32));
        }
        self.push(bim::KIND_VALUE, word, second, &bits);
        bits
    }

    fn text(&mut self) -> Vec<bool> {
        let characters = match self.rng.below(40) {
            0 => self.rng.within(100, 700),
            1..=20 => self.rng.within(0, 4),
            _ => self.rng.within(0, 20),
        };
        let mut text = String::new();
        for _ in 0..characters {
            text.push(character(self.rng));
        }
        let mut bytes = text.into_bytes();
        if !bytes.is_empty() && self.odd() {
            let at = self.rng.below(bytes.len());
            bytes[at] = if self.rng.one_in(2) { text_byte(self.rng) } else { self.rng.word() as u8 };
        }
        let mut bits = self.number(bytes.len() as u64);
        for &byte in &bytes {
            bits.extend(bits_of(byte.into(), 8));
        }
        self.push(bim::KIND_VALUE, bytes.len() as u32, 0, &bits);
        self.texts.extend(bytes);
        bits
    }

    fn particle(&mut self, row: usize, open: usize) -> Option<Vec<bool>> {
        match self.table.particle_row(row) {
            Particle::Element { name, of_type } => self.element(Some(row), name, of_type, open),
            Particle::Sequence { first, number } => {
                let open = open.checked_sub(1)?;
                let mut bits = vec![];
                for child in first..first + number {
                    bits.extend(self.particle(child, open)?);
                }
                Some(bits)
            }
            Particle::Choice { first, number } => {
                let open = open.checked_sub(1)?;
                let (cheapest, least) = self.costs.cheapest(first, number);
                let wished = self.rng.below(number);
                let extra = self.costs.rows[first + wished] - least;
                let branch = if self.spend(extra) { wished } else { cheapest };
                let mut bits = bits_of(branch as u64, width(number as i64));
                if self.odd() {
                    bits = vec![true; bits.len()];
                }
                self.push(bim::KIND_PICK, branch as u32, 0, &bits);
                bits.extend(self.particle(first + branch, open)?);
                Some(bits)
            }
            Particle::Occurs { child, least, most } => {
                let open = open.checked_sub(1)?;
                let cost = self.costs.rows[child];
                let mut count = least;
                let wished = self.rng.below(5);
                while count < most.min(bim::MOST_TIMES) && count < least + wished as u32 && self.spend(cost) {
                    count += 1;
                }
                let mut bits = count_bits(least.into(), most.into(), count).unwrap_or_default();
                if self.odd() {
                    bits = self.odd_count(least, most, count, bits);
                }
                self.push(bim::KIND_TIMES, count, 0, &bits);
                for _ in 0..count {
                    bits.extend(self.particle(child, open)?);
                }
                Some(bits)
            }
        }
    }

    /// A count's code that names nothing, is not shortest or is too large.
    fn odd_count(&mut self, least: u32, most: u32, count: u32, bits: Vec<bool>) -> Vec<bool> {
        if most != bim::UNBOUNDED {
            let fill = self.rng.one_in(2);
            return bits.iter().enumerate().map(|(at, _)| fill || at == 0).collect();
        }
        let shunt = least == 0;
        let mut odd = if shunt { vec![true] } else { vec![] };
        let above = self.rng.pick(&[0, count - least, bim::MOST_TIMES - least, bim::MOST_TIMES + 1 - least]);
        odd.extend(self.number(above.into()));
        odd
    }

    /// Takes `cost` events from the budget, if it has them.
    fn spend(&mut self, cost: u64) -> bool {
        if cost > self.budget {
            return false;
        }
        self.budget -= cost;
        true
    }
}

/// A character of one to four bytes that a text may have, those at the limits of a length and beside control characters among them.
fn character(rng: &mut Rng) -> char {
    let code = match rng.below(10) {
        0 => rng.pick(&[
            0x09, 0x0a, 0x0d, 0x20, 0x7f, 0x80, 0x85, 0x7ff, 0x800, 0xd7ff, 0xe000, 0xfffe, 0xffff, 0x10000, 0x10_ffff,
        ]),
        1 => rng.within(0x80, 0x7ff) as u32,
        2 => rng.within(0x800, 0xd7ff) as u32,
        3 => rng.within(0x10000, 0x10_ffff) as u32,
        _ => rng.within(0x20, 0x7e) as u32,
    };
    char::from_u32(code).unwrap_or(' ')
}

/// Bits flipped, bytes cut off or added, another mode byte.
pub fn damage_payload(rng: &mut Rng, payload: &mut Vec<u8>) {
    match rng.below(10) {
        0 => {
            let length = rng.below(payload.len() + 1);
            payload.truncate(length);
        }
        1 => {
            payload.pop();
        }
        2 => payload.push(if rng.one_in(2) { 0 } else { rng.word() as u8 }),
        3 if !payload.is_empty() => {
            payload[0] = rng.pick(&[0x0f, 0x4f, 0x8f, 0xcf, 0x1f, 0x5f, 0x9f, 0xdf, 0x2f, 0x07]);
        }
        4 if !payload.is_empty() => {
            // A 1 in the last byte hits the padding as often as anything.
            let last = payload.len() - 1;
            payload[last] |= 1 << rng.below(8);
        }
        _ => {
            for _ in 0..rng.within(1, 3) {
                if !payload.is_empty() {
                    let bit = rng.below(8 * payload.len());
                    payload[bit / 8] ^= 0x80 >> (bit % 8);
                }
            }
        }
    }
}

/// Random bytes behind a mode byte, small numbers being more common so that lengths are not hopeless.
pub fn noise(rng: &mut Rng) -> Vec<u8> {
    let length = rng.within(0, 40);
    let mut payload = vec![rng.pick(&[0x0f, 0x4f, 0x8f, 0x8f, 0x0f, 0x4f, 0x8f, 0x1f, 0x5f, 0x9f])];
    payload.extend((0..length).map(|_| (rng.word() & rng.word() & rng.word()) as u8));
    payload
}

/// A list with one word or event changed, or its texts.
pub fn damage_list(rng: &mut Rng, events: &mut Vec<[u32; 4]>, texts: &mut Vec<u8>) {
    let at = rng.below(events.len());
    match rng.below(18) {
        0 => {
            events.remove(at);
        }
        1 => events.insert(at, events[at]),
        2 => events.truncate(at),
        3 => events.push([rng.below(9) as u32, 0, 0, 0]),
        4 => events[at][0] = bim::KIND_BLANK,
        5 => {
            let other = rng.below(events.len());
            events.swap(at, other);
        }
        6 => {
            if rng.one_in(2) {
                texts.pop();
            } else {
                texts.push(b'a');
            }
        }
        7 if !texts.is_empty() => {
            let byte = rng.below(texts.len());
            texts[byte] = if rng.one_in(2) { text_byte(rng) } else { rng.word() as u8 };
        }
        8 => events[at][0] = rng.below(10) as u32,
        12..=15 => damage_cast(rng, events),
        16..=17 if !dates(events).is_empty() => {
            let at = rng.pick(&dates(events));
            let event = &mut events[at];
            [event[1], event[2]] = damage_date(rng, [event[1], event[2]]);
        }
        _ => {
            let column = rng.within(1, 2);
            events[at][column] = match rng.below(3) {
                0 => events[at][column].wrapping_add(1),
                1 => events[at][column] ^ 1,
                _ => edge_word(rng),
            };
        }
    }
}

/// One of the events that tell effective types changed or lost, or one put behind a Start.
fn damage_cast(rng: &mut Rng, events: &mut Vec<[u32; 4]>) {
    let behind = |events: &[[u32; 4]], kind: u32| -> Vec<_> {
        events.iter().enumerate().filter(|(_, event)| event[0] == kind).map(|(at, _)| at).collect()
    };
    let casts = behind(events, bim::KIND_CAST);
    if casts.is_empty() || rng.one_in(6) {
        let starts = behind(events, bim::KIND_START);
        if !starts.is_empty() {
            events.insert(rng.pick(&starts) + 1, [bim::KIND_CAST, rng.below(9) as u32, rng.below(3) as u32, 0]);
        }
        return;
    }
    let at = rng.pick(&casts);
    match rng.below(8) {
        0 => {
            events.remove(at);
        }
        1 => events.truncate(at),
        2 => events[at][0] = bim::KIND_BLANK,
        3 => events[at][2] = edge_word(rng),
        4 => events[at][1] = edge_word(rng),
        5 => events[at][2] = rng.below(9) as u32,
        6 => events[at][1] = rng.below(9) as u32,
        _ => events[at][2] = events[at][2].wrapping_add(rng.pick(&[1, u32::MAX])),
    }
}
