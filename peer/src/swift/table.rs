//! A table read where it lies: rows of big-endian words, and the check of all of them.

use crate::bim;

type TypeRow = [u8; 4 * bim::TYPE_ROW];
type AttributeRow = [u8; 4 * bim::ATTRIBUTE_ROW];
type ParticleRow = [u8; 4 * bim::PARTICLE_ROW];
type Word = [u8; 4];
type Pair = [u8; 8];

/// A word of a row.
#[inline(always)]
pub fn word<const N: usize>(row: &[u8; N], index: usize) -> u32 {
    u32::from_be_bytes([row[4 * index], row[4 * index + 1], row[4 * index + 2], row[4 * index + 3]])
}

/// A table that was checked.
#[derive(Clone, Copy)]
pub struct Table<'a> {
    pub types: &'a [TypeRow],
    pub attributes: &'a [AttributeRow],
    pub particles: &'a [ParticleRow],
    /// What stands behind the rows: nothing in form 1.
    casts: &'a [u8],
}

/// Derived types and substitutes.
#[derive(Clone, Copy)]
pub struct Casts<'a> {
    /// Derived entries, and of each type the first and how many.
    entries: &'a [Word],
    of_types: &'a [Pair],
    /// Substitutes, and of each particle row the first and how many.
    substitutes: &'a [Pair],
    of_rows: &'a [Pair],
}

impl<'a> Table<'a> {
    /// Checks all rows; the fault of a wrong one is then looked for.
    #[inline(never)]
    pub fn new(bytes: &'a [u8]) -> Result<Self, usize> {
        match Table::split(bytes) {
            Some(table) if table.is_right() => Ok(table),
            _ => Err(first_fault(bytes)),
        }
    }

    /// The rows, where header and length are right.
    fn split(bytes: &'a [u8]) -> Option<Self> {
        let (header, rows) = bytes.split_first_chunk::<{ 4 * bim::HEADER }>()?;
        let [types, attributes, particles] = [1, 2, 3].map(|index| word(header, index) as usize);
        let header_right = (1..=bim::MOST_TYPES).contains(&types)
            && attributes <= bim::MOST_ATTRIBUTES
            && particles <= bim::MOST_PARTICLES;
        let size = 4 * (bim::TYPE_ROW * types + bim::ATTRIBUTE_ROW * attributes + bim::PARTICLE_ROW * particles);
        if !header_right {
            return None;
        }
        let (rows, casts) = rows.split_at_checked(size)?;
        let (types, rows) = rows.split_at(4 * bim::TYPE_ROW * types);
        let (attributes, particles) = rows.split_at(4 * bim::ATTRIBUTE_ROW * attributes);
        let form = word(header, 0);
        let form_right = if casts.is_empty() { form == bim::FORM_PLAIN } else { form == bim::FORM_CASTS };
        form_right.then_some(Table {
            types: types.as_chunks().0,
            attributes: attributes.as_chunks().0,
            particles: particles.as_chunks().0,
            casts,
        })
    }

    /// What stands behind the rows, where it has its length.
    #[inline(always)]
    fn casts(&self) -> Option<Casts<'a>> {
        let (counts, rest) = self.casts.split_first_chunk::<8>()?;
        let [entries, substitutes] = [0, 1].map(|index| word(counts, index) as usize);
        if entries > bim::MOST_DERIVATIONS || substitutes > bim::MOST_SUBSTITUTES {
            return None;
        }
        let (entries, rest) = rest.split_at_checked(4 * entries)?;
        let (substitutes, rest) = rest.split_at_checked(8 * substitutes)?;
        let (of_types, of_rows) = rest.split_at_checked(8 * self.types.len())?;
        (of_rows.len() == 8 * self.particles.len()).then_some(Casts {
            entries: entries.as_chunks().0,
            of_types: of_types.as_chunks().0,
            substitutes: substitutes.as_chunks().0,
            of_rows: of_rows.as_chunks().0,
        })
    }

    /// 2 for a root of no such type, or of too large a name.
    #[inline(always)]
    pub fn check_root(&self, root_name: u32, root_type: u32) -> Result<(), (u32, usize)> {
        if root_type as usize >= self.types.len() || root_name > bim::MOST_NAME {
            return Err((bim::ROOT, 0));
        }
        Ok(())
    }

    /// D.
    #[inline(always)]
    pub fn derivations(&self) -> usize {
        self.casts.first_chunk::<4>().map_or(0, |count| word(count, 0) as usize)
    }

    /// What codes are read and written by, where any element can have one.
    #[inline(always)]
    pub fn codes(&self, casting: bool) -> Option<Casts<'a>> {
        if self.casts.is_empty() {
            return None;
        }
        self.casts().filter(|casts| casting || !casts.substitutes.is_empty())
    }

    fn is_right(&self) -> bool {
        self.types.iter().all(|row| self.type_right(row))
            && self.attributes.iter().all(|row| self.attribute_right(row))
            && self.particles.iter().enumerate().all(|(index, row)| self.particle_right(index as u32, row))
            && (self.casts.is_empty() || self.casts_right())
    }

    #[inline(never)]
    fn casts_right(&self) -> bool {
        let Some(casts) = self.casts() else {
            return false;
        };
        let types = self.types.len() as u32;
        // Which type last had this one among its entries, or was it: counted from 1.
        let mut stamps = [0; bim::MOST_TYPES];
        let mut each_once = |stamp: u32, entries: &[Word]| {
            stamps[stamp as usize - 1] = stamp;
            entries
                .iter()
                .all(|entry| std::mem::replace(&mut stamps[u32::from_be_bytes(*entry) as usize], stamp) != stamp)
        };
        casts.entries.iter().all(|entry| u32::from_be_bytes(*entry) < types)
            && casts.substitutes.iter().all(|pair| (word(pair, 0) <= bim::MOST_NAME) & (word(pair, 1) < types))
            && (1..).zip(casts.of_types).all(|(stamp, pair)| match span(pair, casts.entries) {
                Some(entries) => each_once(stamp, entries),
                None => false,
            })
            && casts.of_rows.iter().zip(self.particles).all(|(pair, row)| match word(row, 0) {
                bim::ELEMENT => span(pair, casts.substitutes).is_some(),
                _ => *pair == [0; 8],
            })
    }

    #[inline(always)]
    fn type_right(&self, row: &TypeRow) -> bool {
        let [held, inside, first, count, a, b, c] = [0, 1, 2, 3, 4, 5, 6].map(|index| word(row, index));
        let attributes = self.attributes.len() as u32;
        let front = (held <= bim::MOST_HELD) & (first <= attributes) & (count <= attributes.wrapping_sub(first));
        front
            && match inside {
                bim::EMPTY => a | b | c == 0,
                bim::PARTICLES => ((a as usize) < self.particles.len()) & (b | c == 0),
                bim::SIMPLE => match a {
                    bim::RANGED => b as i32 <= c as i32,
                    bim::ENUMERATION => (b.wrapping_sub(1) < bim::MOST_VALUES) & (c == 0),
                    _ => (a <= bim::DATE) & (b | c == 0),
                },
                _ => false,
            }
    }

    #[inline(always)]
    fn attribute_right(&self, row: &AttributeRow) -> bool {
        match self.types.get(word(row, 2) as usize) {
            Some(of_type) => {
                (word(row, 0) <= bim::MOST_NAME)
                    & (word(row, 1) <= 1)
                    & (word(of_type, 1) == bim::SIMPLE)
                    & (word(of_type, 3) == 0)
            }
            None => false,
        }
    }

    #[inline(always)]
    fn particle_right(&self, index: u32, row: &ParticleRow) -> bool {
        let [kind, p, q, r] = [0, 1, 2, 3].map(|index| word(row, index));
        let particles = self.particles.len() as u32;
        let child = (p > index) & (p < particles);
        match kind {
            bim::ELEMENT => (p <= bim::MOST_NAME) & ((q as usize) < self.types.len()) & (r == 0),
            bim::SEQUENCE | bim::CHOICE => {
                child & (q >= kind) & (q <= bim::MOST_CHILDREN) & (q <= particles.wrapping_sub(p)) & (r == 0)
            }
            bim::OCCURS => child & (q <= bim::MOST_TIMES) & (r.wrapping_sub(1) < bim::UNBOUNDED) & (q <= r),
            _ => false,
        }
    }
}

impl<'a> Casts<'a> {
    /// The types derived from a type.
    #[inline(always)]
    pub fn derived(&self, of_type: u32) -> &'a [Word] {
        span(&self.of_types[of_type as usize], self.entries).unwrap_or(&[])
    }

    /// The substitutes of a particle row.
    #[inline(always)]
    pub fn substitutes(&self, row: u32) -> &'a [Pair] {
        span(&self.of_rows[row as usize], self.substitutes).unwrap_or(&[])
    }
}

/// Of these, as many as a pair says, where they are there.
#[inline(always)]
fn span<'a, T>(pair: &Pair, all: &'a [T]) -> Option<&'a [T]> {
    let (first, count) = (word(pair, 0) as usize, word(pair, 1) as usize);
    all.get(first..)?.get(..count)
}

/// Where a table that is not right is wrong, as the judge finds it.
#[cold]
#[inline(never)]
fn first_fault(bytes: &[u8]) -> usize {
    let whole = bytes.len() / 4;
    let seen =
        if bytes.len().is_multiple_of(4) && whole <= bim::MOST_TABLE_WORDS { whole } else { whole.min(bim::HEADER) };
    let mut words = [0; bim::MOST_TABLE_WORDS];
    for (word, bytes) in words[..seen].iter_mut().zip(bytes.as_chunks::<4>().0) {
        *word = u32::from_be_bytes(*bytes);
    }
    match crate::table::check(&words[..seen]) {
        Err(fault) if fault < seen => fault,
        _ => whole,
    }
}
