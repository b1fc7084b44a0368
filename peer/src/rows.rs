//! A table put together row by row, as small as it is or filled up to the largest there is.

use crate::bim;
use crate::rng::Rng;

/// The rows of a table.
#[derive(Clone, Default)]
pub struct Rows {
    /// Seven words each.
    pub types: Vec<[u32; 7]>,
    /// Three words each.
    pub attributes: Vec<[u32; 3]>,
    /// Four words each.
    pub particles: Vec<[u32; 4]>,
    /// What a table of form 2 has besides.
    pub casts: Option<Casts>,
}

/// Derived types and substitutes. Pairs that are not given are 0, 0.
#[derive(Clone, Default)]
pub struct Casts {
    /// Derived entries, each a type.
    pub entries: Vec<u32>,
    /// Name and type each.
    pub substitutes: Vec<[u32; 2]>,
    /// First entry and number of them, by type.
    pub of_types: Vec<[u32; 2]>,
    /// First substitute and number of them, by particle row.
    pub of_rows: Vec<[u32; 2]>,
}

/// Where the held marks of a type stand.
pub const fn held_word(of_type: usize) -> usize {
    bim::HEADER + bim::TYPE_ROW * of_type
}

/// Whether a party holds a type. The party is one of the eight.
pub fn held(words: &[u32], party: u32, of_type: usize) -> bool {
    words[held_word(of_type)] >> party & 1 == 1
}

/// A type of no content and no attributes.
pub const NOTHING: [u32; 7] = [1, bim::EMPTY, 0, 0, 0, 0, 0];

/// A type of simple content without attributes.
pub const fn simple(kind: u32, b: u32, c: u32) -> [u32; 7] {
    [1, bim::SIMPLE, 0, 0, kind, b, c]
}

/// A type whose content is a particle row, with attribute rows.
pub const fn complex(first_attribute: u32, attributes: u32, row: u32) -> [u32; 7] {
    [1, bim::PARTICLES, first_attribute, attributes, row, 0, 0]
}

/// A particle row of one element.
pub fn element(name: u32, of_type: u32) -> [u32; 4] {
    [bim::ELEMENT, name, of_type, 0]
}

/// A particle row of `number` children from `first` on.
pub fn sequence(first: u32, number: u32) -> [u32; 4] {
    [bim::SEQUENCE, first, number, 0]
}

/// A particle row of one of `number` children from `first` on.
pub fn choice(first: u32, number: u32) -> [u32; 4] {
    [bim::CHOICE, first, number, 0]
}

/// A particle row of a child some times.
pub fn occurs(child: u32, least: u32, most: u32) -> [u32; 4] {
    [bim::OCCURS, child, least, most]
}

impl Rows {
    /// The rows of a right table.
    pub fn of(words: &[u32]) -> Self {
        let (header, rows) = words.split_at(bim::HEADER);
        let (types, rows) = rows.split_at(bim::TYPE_ROW * header[1] as usize);
        let (attributes, rows) = rows.split_at(bim::ATTRIBUTE_ROW * header[2] as usize);
        let (particles, casts) = rows.split_at(bim::PARTICLE_ROW * header[3] as usize);
        Rows {
            types: types.as_chunks().0.to_vec(),
            attributes: attributes.as_chunks().0.to_vec(),
            particles: particles.as_chunks().0.to_vec(),
            casts: (header[0] == bim::FORM_CASTS).then(|| Casts::of(casts, header[1] as usize)),
        }
    }

    /// The table's words.
    pub fn words(&self) -> Vec<u32> {
        let form = if self.casts.is_some() { bim::FORM_CASTS } else { bim::FORM_PLAIN };
        let header = [form, self.types.len() as u32, self.attributes.len() as u32, self.particles.len() as u32];
        let casts = self.casts.as_ref().map_or(vec![], |casts| casts.words(self.types.len(), self.particles.len()));
        [&header[..], &self.types.concat(), &self.attributes.concat(), &self.particles.concat(), &casts].concat()
    }

    /// The same rows, and behind them valid ones of every kind that nothing refers to, up to `types` types and `rows`
    /// attribute and particle rows.
    pub fn filled(&self, types: usize, rows: usize) -> Self {
        let mut rng = Rng::new(7);
        let mut all = self.clone();
        // What an attribute may be of, whatever else there is.
        all.types.push(simple(bim::BOOLEAN, 0, 0));
        let flag = all.types.len() as u32 - 1;
        let (attributes, particles) = (rows.max(all.attributes.len()), rows.max(all.particles.len()));
        while all.types.len() < types.max(self.types.len() + 1) {
            let first = rng.below(attributes + 1);
            let count = rng.below((attributes - first).min(8) + 1);
            let (first, count) = (first as u32, count as u32);
            all.types.push(match rng.below(8) {
                0 => [1, bim::EMPTY, first, count, 0, 0, 0],
                1 => simple(bim::RANGED, 5_u32.wrapping_neg(), rng.below(1 << 20) as u32),
                2 => simple(bim::ENUMERATION, 1 + rng.below(bim::MOST_VALUES as usize) as u32, 0),
                3 => simple(bim::TEXT, 0, 0),
                4 => simple(bim::UNSIGNED, 0, 0),
                _ => complex(first, count, rng.below(particles) as u32),
            });
        }
        while all.attributes.len() < attributes {
            all.attributes.push([rng.below(65_536) as u32, rng.below(2) as u32, flag]);
        }
        while all.particles.len() < particles {
            let row = all.particles.len();
            let left = particles - row - 1;
            let child = |rng: &mut Rng, number: usize| (row + 1 + rng.below(left - number + 1)) as u32;
            let number = 2 + rng.below(7);
            let kind = if left < 8 { 0 } else { rng.below(4) };
            all.particles.push(match kind {
                0 => element(rng.below(65_536) as u32, rng.below(all.types.len()) as u32),
                1 => sequence(child(&mut rng, number), number as u32),
                2 => choice(child(&mut rng, number), number as u32),
                _ => occurs(child(&mut rng, 1), rng.below(3) as u32, if rng.one_in(2) { bim::UNBOUNDED } else { 9 }),
            });
        }
        if let Some(casts) = &mut all.casts {
            casts.fill(&mut rng, all.types.len() as u32, &all.particles);
        }
        all
    }

    /// Filled up to the largest table of its form: 8,964 words, or 14,598.
    pub fn largest(&self) -> Self {
        self.filled(bim::MOST_TYPES, bim::MOST_PARTICLES)
    }
}

impl Casts {
    /// Those of a right table's words behind its rows.
    fn of(words: &[u32], types: usize) -> Self {
        let (counts, words) = words.split_at(2);
        let (entries, words) = words.split_at(counts[0] as usize);
        let (substitutes, words) = words.split_at(2 * counts[1] as usize);
        let (of_types, of_rows) = words.split_at(2 * types);
        let pairs = |words: &[u32]| words.as_chunks().0.to_vec();
        Casts {
            entries: entries.to_vec(),
            substitutes: pairs(substitutes),
            of_types: pairs(of_types),
            of_rows: pairs(of_rows),
        }
    }

    fn words(&self, types: usize, particles: usize) -> Vec<u32> {
        let counts = [self.entries.len() as u32, self.substitutes.len() as u32];
        let pairs = |given: &[[u32; 2]], number| {
            let mut pairs = given.to_vec();
            pairs.resize(number, [0, 0]);
            pairs.concat()
        };
        let (of_types, of_rows) = (pairs(&self.of_types, types), pairs(&self.of_rows, particles));
        [&counts[..], &self.entries, &self.substitutes.concat(), &of_types, &of_rows].concat()
    }

    /// Entries and substitutes up to as many as there may be, and pairs of the types and elements that have none.
    fn fill(&mut self, rng: &mut Rng, types: u32, particles: &[[u32; 4]]) {
        // From 2T on, which is past what is given, the entries go round all types: those behind a type's own are others.
        while self.entries.len() < bim::MOST_DERIVATIONS {
            self.entries.push(self.entries.len() as u32 % types);
        }
        while self.substitutes.len() < bim::MOST_SUBSTITUTES {
            self.substitutes.push([rng.below(65_536) as u32, rng.below(types as usize) as u32]);
        }
        for of_type in self.of_types.len() as u32..types {
            self.of_types.push([2 * types + of_type + 1, rng.below(types.min(9) as usize) as u32]);
        }
        for row in &particles[self.of_rows.len()..] {
            let count = rng.below(9) as u32;
            self.of_rows.push(if row[0] == bim::ELEMENT { [rng.below(1000) as u32, count] } else { [0, 0] });
        }
    }
}
