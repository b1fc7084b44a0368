//! The schema table: its check, and its rows.

use crate::answer::{refusal, Refusal};
use crate::bim;

/// A table that was checked.
#[derive(Clone, Copy)]
pub struct Table<'a> {
    words: &'a [u32],
    types: usize,
    attributes: usize,
    particles: usize,
    derivations: usize,
    substitutes: usize,
}

/// A type row.
#[derive(Clone, Copy, Debug, PartialEq, Eq)]
pub struct Type {
    /// Who holds it: bit p is party p's mark.
    pub held: u32,
    /// One of `content`.
    pub content: u32,
    /// First attribute row.
    pub first_attribute: usize,
    /// Number of attribute rows.
    pub attributes: usize,
    /// Simple kind, or particle row.
    pub a: u32,
    /// First parameter of the simple kind.
    pub b: u32,
    /// Second parameter of the simple kind.
    pub c: u32,
}

impl Type {
    /// Whether this party looks into elements of this type. The party is one of the eight.
    #[inline]
    pub fn held_by(&self, party: u32) -> bool {
        self.held >> party & 1 == 1
    }
}

/// An attribute row.
#[derive(Clone, Copy, Debug, PartialEq, Eq)]
pub struct Attribute {
    /// Name.
    pub name: u32,
    /// Whether it is always there and so has no flag bit.
    pub required: bool,
    /// A type of simple content.
    pub of_type: usize,
}

/// A particle row.
#[derive(Clone, Copy, Debug, PartialEq, Eq)]
pub enum Particle {
    /// One element.
    Element {
        /// Name.
        name: u32,
        /// Type.
        of_type: usize,
    },
    /// All children in order.
    Sequence {
        /// First child row.
        first: usize,
        /// Number of children.
        number: usize,
    },
    /// One child of several.
    Choice {
        /// First child row.
        first: usize,
        /// Number of children.
        number: usize,
    },
    /// One child, several times.
    Occurs {
        /// The child row.
        child: usize,
        /// Least count.
        least: u32,
        /// Most count, or `bim::UNBOUNDED`.
        most: u32,
    },
}

/// The first word at fault, or the number of words given where their number is wrong.
pub fn check(words: &[u32]) -> Result<(), usize> {
    Table::new(words).map(|_| ())
}

/// Sets the party's mark of a type, or clears it where `mark` is 0: 1, 2, 26. A table that is refused stays as it is.
pub fn set_held(words: &mut [u32], party: u32, of_type: u32, mark: u32) -> Result<(), Refusal> {
    let table = Table::new(words).map_err(|word| refusal(bim::TABLE, word))?;
    table.check_type_and_party(of_type, party)?;
    let at = table.type_word(of_type as usize);
    let bit = 1 << party;
    words[at] = if mark == 0 { words[at] & !bit } else { words[at] | bit };
    Ok(())
}

/// Judges the header words that are there; `Err` is the first at fault.
pub fn check_header(words: &[u32]) -> Result<(), usize> {
    let good: [fn(u32) -> bool; bim::HEADER] = [
        |form| [bim::FORM_PLAIN, bim::FORM_CASTS].contains(&form),
        |types| (1..=bim::MOST_TYPES as u32).contains(&types),
        |attributes| attributes <= bim::MOST_ATTRIBUTES as u32,
        |particles| particles <= bim::MOST_PARTICLES as u32,
    ];
    match words.iter().zip(good).position(|(&word, good)| !good(word)) {
        Some(fault) => Err(fault),
        None => Ok(()),
    }
}

/// Passes where `good`, and else blames the word at `index`.
fn demand(good: bool, index: usize) -> Result<(), usize> {
    if good {
        Ok(())
    } else {
        Err(index)
    }
}

impl<'a> Table<'a> {
    /// Checks the words in order.
    pub fn new(words: &'a [u32]) -> Result<Self, usize> {
        check_header(words)?;
        let &[_, types, attributes, particles, ..] = words else {
            return Err(words.len());
        };
        let (types, attributes, particles) = (types as usize, attributes as usize, particles as usize);
        let mut table = Table { words, types, attributes, particles, derivations: 0, substitutes: 0 };
        let rows = table.particle_word(particles);
        let mut length = rows;
        if words[0] == bim::FORM_CASTS {
            // A count that is not there is 0: the length is wrong then.
            let count = |at: usize| words.get(at).map_or(0, |&count| count as usize);
            (table.derivations, table.substitutes) = (count(rows), count(rows + 1));
            length = table.row_pair(particles);
        }
        demand(words.len() == length && length <= bim::MOST_TABLE_WORDS, words.len())?;
        (0..types).try_for_each(|row| table.check_type(row))?;
        (0..attributes).try_for_each(|row| table.check_attribute(row))?;
        (0..particles).try_for_each(|row| table.check_particle(row))?;
        if length > rows {
            demand(table.derivations <= bim::MOST_DERIVATIONS, rows)?;
            demand(table.substitutes <= bim::MOST_SUBSTITUTES, rows + 1)?;
            table.check_entries()?;
            (0..types).try_for_each(|of_type| table.check_derived(of_type))?;
            (0..particles).try_for_each(|row| table.check_substitutes(row))?;
        }
        Ok(table)
    }

    /// Derived entries and substitutes.
    fn check_entries(&self) -> Result<(), usize> {
        for entry in self.derived_word(0)..self.derived_word(self.derivations) {
            demand((self.words[entry] as usize) < self.types, entry)?;
        }
        for at in (0..self.substitutes).map(|index| self.substitute_word(index)) {
            demand(self.words[at] <= bim::MOST_NAME, at)?;
            demand((self.words[at + 1] as usize) < self.types, at + 1)?;
        }
        Ok(())
    }

    /// The pair of a type: its entries are there, each once, and it is none of them.
    fn check_derived(&self, of_type: usize) -> Result<(), usize> {
        let at = self.type_pair(of_type);
        let (first, count) = (self.words[at] as usize, self.words[at + 1] as usize);
        demand(first <= self.derivations, at)?;
        demand(count <= self.derivations - first, at + 1)?;
        let mut met = [false; bim::MOST_TYPES];
        met[of_type] = true;
        for entry in first..first + count {
            let derived = self.words[self.derived_word(entry)] as usize;
            demand(!met[derived], at + 1)?;
            met[derived] = true;
        }
        Ok(())
    }

    /// The pair of a particle row: an element's substitutes are there, and no other row has any.
    fn check_substitutes(&self, row: usize) -> Result<(), usize> {
        let at = self.row_pair(row);
        let element = matches!(self.particle_row(row), Particle::Element { .. });
        let most = if element { self.substitutes } else { 0 };
        let (first, count) = (self.words[at] as usize, self.words[at + 1] as usize);
        demand(first <= most, at)?;
        demand(count <= most - first, at + 1)
    }

    /// Passes where there is such a type, and then where there is such a party: 2, 26.
    pub fn check_type_and_party(&self, of_type: u32, party: u32) -> Result<(), Refusal> {
        if of_type as usize >= self.types {
            return Err(refusal(bim::ROOT, 0));
        }
        if party >= bim::PARTIES {
            return Err(refusal(bim::PARTY, 0));
        }
        Ok(())
    }

    fn check_type(&self, row: usize) -> Result<(), usize> {
        let at = self.type_word(row);
        let word = |index: usize| self.words[at + index];
        demand(word(0) <= bim::MOST_HELD, at)?;
        demand(word(1) <= bim::PARTICLES, at + 1)?;
        demand(word(2) as usize <= self.attributes, at + 2)?;
        demand(word(3) as usize <= self.attributes - word(2) as usize, at + 3)?;
        let (a, b, c) = (word(4), word(5), word(6));
        match word(1) {
            bim::EMPTY => {
                demand(a == 0, at + 4)?;
                demand(b == 0, at + 5)?;
                demand(c == 0, at + 6)
            }
            bim::PARTICLES => {
                demand((a as usize) < self.particles, at + 4)?;
                demand(b == 0, at + 5)?;
                demand(c == 0, at + 6)
            }
            _ => {
                demand(a <= bim::DATE, at + 4)?;
                let (b_good, c_good) = match a {
                    bim::RANGED => (true, b as i32 <= c as i32),
                    bim::ENUMERATION => ((1..=bim::MOST_VALUES).contains(&b), c == 0),
                    _ => (b == 0, c == 0),
                };
                demand(b_good, at + 5)?;
                demand(c_good, at + 6)
            }
        }
    }

    fn check_attribute(&self, row: usize) -> Result<(), usize> {
        let at = self.attribute_word(row);
        let word = |index: usize| self.words[at + index];
        demand(word(0) <= bim::MOST_NAME, at)?;
        demand(word(1) <= 1, at + 1)?;
        let of_type = word(2) as usize;
        demand(of_type < self.types, at + 2)?;
        let of_type = self.type_row(of_type);
        demand(of_type.content == bim::SIMPLE && of_type.attributes == 0, at + 2)
    }

    fn check_particle(&self, row: usize) -> Result<(), usize> {
        let at = self.particle_word(row);
        let word = |index: usize| self.words[at + index];
        let (p, q, r) = (word(1), word(2), word(3));
        let child_good = p as usize > row && (p as usize) < self.particles;
        match word(0) {
            bim::ELEMENT => {
                demand(p <= bim::MOST_NAME, at + 1)?;
                demand((q as usize) < self.types, at + 2)?;
                demand(r == 0, at + 3)
            }
            // A sequence has at least 1 child and a choice at least 2: their kinds' own numbers.
            group @ (bim::SEQUENCE | bim::CHOICE) => {
                demand(child_good, at + 1)?;
                let within = q as usize <= self.particles - p as usize;
                demand((group..=bim::MOST_CHILDREN).contains(&q) && within, at + 2)?;
                demand(r == 0, at + 3)
            }
            bim::OCCURS => {
                demand(child_good, at + 1)?;
                demand(q <= bim::MOST_TIMES, at + 2)?;
                // Unbounded is over every least, so one comparison serves both kinds of most.
                demand((1..=bim::UNBOUNDED).contains(&r) && q <= r, at + 3)
            }
            _ => Err(at),
        }
    }

    fn type_word(&self, row: usize) -> usize {
        bim::HEADER + bim::TYPE_ROW * row
    }

    fn attribute_word(&self, row: usize) -> usize {
        self.type_word(self.types) + bim::ATTRIBUTE_ROW * row
    }

    fn particle_word(&self, row: usize) -> usize {
        self.attribute_word(self.attributes) + bim::PARTICLE_ROW * row
    }

    fn derived_word(&self, entry: usize) -> usize {
        self.particle_word(self.particles) + 2 + entry
    }

    fn substitute_word(&self, index: usize) -> usize {
        self.derived_word(self.derivations) + 2 * index
    }

    fn type_pair(&self, of_type: usize) -> usize {
        self.substitute_word(self.substitutes) + 2 * of_type
    }

    fn row_pair(&self, row: usize) -> usize {
        self.type_pair(self.types) + 2 * row
    }

    /// The pair of words at `at`, zeros in a table that has no pairs.
    fn pair(&self, at: usize) -> (usize, usize) {
        match self.words.get(at..at + 2) {
            Some(pair) => (pair[0] as usize, pair[1] as usize),
            None => (0, 0),
        }
    }

    /// D.
    pub fn derivations(&self) -> usize {
        self.derivations
    }

    /// The types derived from a type, which is below T.
    #[inline]
    pub fn derived(&self, of_type: usize) -> &'a [u32] {
        let (first, count) = self.pair(self.type_pair(of_type));
        let words = self.words;
        words.get(self.derived_word(first)..self.derived_word(first + count)).unwrap_or(&[])
    }

    /// The substitutes of a particle row, which is below P: name and type of each.
    #[inline]
    pub fn substitutes(&self, row: usize) -> &'a [[u32; 2]] {
        let (first, count) = self.pair(self.row_pair(row));
        let words = self.words;
        words.get(self.substitute_word(first)..self.substitute_word(first + count)).unwrap_or(&[]).as_chunks().0
    }

    /// T.
    pub fn types(&self) -> usize {
        self.types
    }

    /// A.
    pub fn attributes(&self) -> usize {
        self.attributes
    }

    /// P.
    pub fn particles(&self) -> usize {
        self.particles
    }

    /// The type row `row`, which is below T.
    #[inline]
    pub fn type_row(&self, row: usize) -> Type {
        let at = self.type_word(row);
        let words = &self.words[at..at + bim::TYPE_ROW];
        Type {
            held: words[0],
            content: words[1],
            first_attribute: words[2] as usize,
            attributes: words[3] as usize,
            a: words[4],
            b: words[5],
            c: words[6],
        }
    }

    /// The attribute row `row`, which is below A.
    #[inline]
    pub fn attribute_row(&self, row: usize) -> Attribute {
        let at = self.attribute_word(row);
        let words = &self.words[at..at + bim::ATTRIBUTE_ROW];
        Attribute { name: words[0], required: words[1] == 1, of_type: words[2] as usize }
    }

    /// The particle row `row`, which is below P.
    #[inline]
    pub fn particle_row(&self, row: usize) -> Particle {
        let at = self.particle_word(row);
        let words = &self.words[at..at + bim::PARTICLE_ROW];
        match words[0] {
            bim::ELEMENT => Particle::Element { name: words[1], of_type: words[2] as usize },
            bim::SEQUENCE => Particle::Sequence { first: words[1] as usize, number: words[2] as usize },
            bim::CHOICE => Particle::Choice { first: words[1] as usize, number: words[2] as usize },
            _ => Particle::Occurs { child: words[1] as usize, least: words[2], most: words[3] },
        }
    }
}
