//! The writer, for speed: a walk judges every event and packs its code into a word; then the words are put out.

use super::bits::{code5, text_fault, width, Pen};
use super::calendar;
use super::table::{word, Casts, Table};
use super::{check_party, fill_area, refuse, whole_area};
use crate::bim;

/// Writes a list; `payload` and `area` are written.
#[allow(clippy::too_many_arguments)] // the boundary's names and order are fixed
pub fn write(
    table: &[u8],
    party: u32,
    root_name: u32,
    root_type: u32,
    mode: u32,
    events: &[u8],
    texts: &[u8],
    payload: &mut [u8],
    area: &mut [u8],
) -> u32 {
    let Some(area) = whole_area(area) else {
        payload.fill(0);
        return bim::AREA_SIZE;
    };
    let (list, rest) = events.as_chunks::<{ bim::EVENT }>();
    let written = begin(table, party, root_name, root_type, mode).and_then(|table| {
        if !rest.is_empty() || list.len() > bim::MOST_EVENTS {
            return Err((bim::NO_READING, list.len()));
        }
        let call = Call { table, party, mode, list, texts, root_name, root_type };
        // The place for the codes is no larger than the list asks: it is cleared first.
        match list.len() {
            0..=32 => call.run::<32>(payload),
            33..=256 => call.run::<256>(payload),
            _ => call.run::<{ bim::MOST_EVENTS }>(payload),
        }
    });
    match written {
        Ok(bits) => {
            payload[bits.div_ceil(8)..].fill(0);
            fill_area(area, [0, mode, list.len() as u32, texts.len() as u32, bits as u32, 0], &[]);
            bim::ACCEPTED
        }
        Err(refused) => {
            payload.fill(0);
            refuse(area, refused, &[])
        }
    }
}

/// The short call: writes a list in mode 2, whatever the table has.
#[allow(clippy::too_many_arguments)] // the boundary's names and order are fixed
pub fn write_lengths(
    table: &[u8],
    party: u32,
    root_name: u32,
    root_type: u32,
    events: &[u8],
    texts: &[u8],
    payload: &mut [u8],
    area: &mut [u8],
) -> u32 {
    write(table, party, root_name, root_type, bim::MODE_ALWAYS, events, texts, payload, area)
}

/// What comes before the list: 1, 2, 26, 22.
fn begin(table: &[u8], party: u32, root_name: u32, root_type: u32, mode: u32) -> Result<Table<'_>, (u32, usize)> {
    let table = Table::new(table).map_err(|word| (bim::TABLE, word))?;
    table.check_root(root_name, root_type)?;
    check_party(party)?;
    let casting = mode >= bim::CASTING;
    if mode & 3 > bim::MODE_ALWAYS || casting && (mode >= 2 * bim::CASTING || table.derivations() == 0) {
        return Err((bim::WRITE_MODE, 0));
    }
    Ok(table)
}

/// The code of an event in a word: text bytes behind it (12 bits), its width (6), its bits (41 at most). A dateTime has the top bit, and
/// then its days and 27 bits of milliseconds.
#[derive(Clone, Copy)]
struct Piece(u64);

const BITS: u32 = 45;
const WIDTH: u32 = 6;
const DATE_TIME: u64 = 1 << 63;

impl Piece {
    #[inline(always)]
    fn new((bits, width): (u64, u32), text: u32) -> Self {
        Piece(u64::from(text) << (BITS + WIDTH) | u64::from(width) << BITS | bits)
    }

    #[inline(always)]
    fn date_time(days: u32, ms: u32) -> Self {
        Piece(DATE_TIME | u64::from(days) << bim::MS_BITS | u64::from(ms))
    }

    #[inline(always)]
    fn parts(self) -> (u64, u32, usize) {
        (self.0 & ((1 << BITS) - 1), (self.0 >> BITS) as u32 & ((1 << WIDTH) - 1), (self.0 >> (BITS + WIDTH)) as usize)
    }
}

/// What was asked.
struct Call<'a> {
    table: Table<'a>,
    party: u32,
    mode: u32,
    list: &'a [[u8; bim::EVENT]],
    texts: &'a [u8],
    root_name: u32,
    root_type: u32,
}

impl Call<'_> {
    /// Writes the whole list: the bits that it takes, or a refusal.
    #[inline(never)]
    fn run<const MOST: usize>(&self, payload: &mut [u8]) -> Result<usize, (u32, usize)> {
        let mut pieces = [Piece(0); MOST];
        let &Call { table, party, mode, list, texts, root_name, root_type } = self;
        let pieces = &mut pieces[..list.len()];
        let casting = mode >= bim::CASTING;
        let mut walk = Walk {
            table,
            mark: 1 << party,
            lengths: mode % bim::CASTING,
            casting,
            codes: table.codes(casting),
            list,
            texts,
            used: 0,
            next: 0,
            bits: 8,
            number: 0,
            pieces,
            filled: 0,
        };
        if walk.element::<false>(0, root_name, root_type, bim::MOST_OPEN).is_none() {
            return Err((walk.number, walk.next));
        }
        let Walk { used, next, bits, pieces, filled, .. } = walk;
        if let Some(event) = list.get(next) {
            let number = if word(event, 0) == bim::KIND_BLANK { bim::BLANK } else { bim::NO_READING };
            return Err((number, next));
        }
        if used < texts.len() {
            return Err((bim::TEXT_BYTES, list.len()));
        }
        let bytes = bits.div_ceil(8);
        if bytes > bim::MOST_PAYLOAD || bytes > payload.len() {
            return Err((bim::PAYLOAD_ROOM, 0));
        }
        let mode_byte = [bim::MODE_NEVER_BYTE, bim::MODE_OPTIONAL_BYTE, bim::MODE_ALWAYS_BYTE][mode as usize & 3];
        let casting_bit = if casting { bim::CASTING_BYTE } else { 0 };
        put_out(&pieces[..filled], texts, mode_byte | casting_bit, &mut payload[..bytes]);
        Ok(bits)
    }
}

/// The codes one behind the other, behind the mode byte.
fn put_out(pieces: &[Piece], mut texts: &[u8], mode_byte: u8, payload: &mut [u8]) {
    let mut pen = Pen::new(payload, mode_byte);
    for piece in pieces {
        let (bits, width, text) = piece.parts();
        if text == 0 {
            pen.put(bits, width);
        } else if piece.0 & DATE_TIME != 0 {
            pen.put(piece.0 >> bim::MS_BITS & u64::from(u32::MAX), 32);
            pen.put(piece.0 & ((1 << bim::MS_BITS) - 1), 32);
        } else {
            pen.put(bits, width);
            let (text, rest) = texts.split_at(text);
            pen.put_text(text);
            texts = rest;
        }
    }
    pen.finish();
}

struct Walk<'a> {
    table: Table<'a>,
    /// The party's bit of a held word.
    mark: u32,
    /// Of the mode, length coding.
    lengths: u32,
    casting: bool,
    /// Where any element can have codes.
    codes: Option<Casts<'a>>,
    list: &'a [[u8; bim::EVENT]],
    texts: &'a [u8],
    /// Text bytes used.
    used: usize,
    /// The next event.
    next: usize,
    /// Bits so far, the mode byte included.
    bits: usize,
    /// Of a refusal; its place is the next event.
    number: u32,
    /// A place for the code of each event that has one, and how many are filled.
    pieces: &'a mut [Piece],
    filled: usize,
}

/// An answer of nothing is a refusal, which then stands in the walk.
type Step<T = ()> = Option<T>;

/// A code: its bits and their number.
type Code = (u64, u32);

impl Walk<'_> {
    #[cold]
    #[inline(never)]
    fn refuse<T>(&mut self, number: u32) -> Step<T> {
        self.number = number;
        None
    }

    /// The next event's second and third word, if it is of a kind: a Blank is 19, any other kind and no event 18.
    #[inline(always)]
    fn take(&mut self, of_kind: u32) -> Step<(u32, u32)> {
        let Some(event) = self.list.get(self.next) else {
            return self.refuse(bim::NO_READING);
        };
        if word(event, 0) != of_kind {
            let blank = word(event, 0) == bim::KIND_BLANK;
            return self.refuse(if blank { bim::BLANK } else { bim::NO_READING });
        }
        Some((word(event, 1), word(event, 2)))
    }

    /// The code of the event at `next`, `text` bytes behind it; and the next event.
    #[inline(always)]
    fn put(&mut self, code: Code, text: u32) {
        self.pieces[self.filled] = Piece::new(code, text);
        self.filled += 1;
        self.bits += code.1 as usize + 8 * text as usize;
        self.next += 1;
    }

    /// An event of a kind with these two words and no code.
    #[inline(always)]
    fn plain(&mut self, of_kind: u32, wanted: (u32, u32)) -> Step {
        if self.take(of_kind)? != wanted {
            return self.refuse(bim::NO_READING);
        }
        self.next += 1;
        Some(())
    }

    /// A row is opened, if one may be: 18 where no event is left stands before 6.
    #[inline(always)]
    fn enter(&mut self, left: usize) -> Step<usize> {
        if self.next == self.list.len() {
            return self.refuse(bim::NO_READING);
        }
        if left == 0 {
            return self.refuse(bim::DEPTH);
        }
        Some(left - 1)
    }

    /// An element and all in it. With `CODES` it may have those of its particle row.
    #[inline(always)]
    fn element<const CODES: bool>(&mut self, particle: u32, name: u32, of_type: u32, left: usize) -> Step {
        let left = self.enter(left)?;
        let (p, sized) = self.take(bim::KIND_START)?;
        let flag_right = match self.lengths {
            bim::MODE_NEVER => sized == 0,
            bim::MODE_OPTIONAL => sized <= 1,
            _ => sized == 1,
        };
        if p != name || !flag_right {
            return self.refuse(bim::NO_READING);
        }
        let start = self.next;
        self.next += 1;
        // A head's place; its code is known at the end.
        let head = self.filled;
        self.filled += usize::from(self.lengths > bim::MODE_NEVER);
        let before = self.bits;
        let mut of_type = of_type;
        if CODES {
            of_type = self.cast(particle, of_type)?;
        }
        let row = &self.table.types[of_type as usize];
        if word(row, 0) & self.mark == 0 {
            self.next = start;
            return self.refuse(bim::NOT_HELD);
        }
        let attributes = word(row, 3);
        if attributes > 0 {
            self.attributes(word(row, 2), attributes)?;
        }
        match word(row, 1) {
            bim::EMPTY => {}
            bim::SIMPLE => self.value(word(row, 4), word(row, 5), word(row, 6))?,
            _ => self.particle(word(row, 4), left)?,
        }
        self.plain(bim::KIND_END, (0, 0))?;
        if self.lengths > bim::MODE_NEVER {
            let (mut bits, mut size) = (0, 0);
            if sized == 1 {
                (bits, size) = code5((self.bits - before) as u32);
            }
            if self.lengths == bim::MODE_OPTIONAL {
                bits |= u64::from(sized) << size;
                size += 1;
            }
            self.pieces[head] = Piece::new((bits, size), 0);
            self.bits += size as usize;
        }
        Some(())
    }

    /// An element that may have codes: apart, so that without any it costs one test.
    #[inline(never)]
    fn with_codes(&mut self, particle: u32, name: u32, of_type: u32, left: usize) -> Step {
        self.element::<true>(particle, name, of_type, left)
    }

    /// The effective type of an element, by the event of its codes where its row has any.
    #[inline(always)]
    fn cast(&mut self, particle: u32, own: u32) -> Step<u32> {
        let Some(casts) = self.codes else {
            return Some(own);
        };
        let substitutes = casts.substitutes(particle);
        let mut derived: &[_] = if self.casting { casts.derived(own) } else { &[] };
        if substitutes.is_empty() && derived.is_empty() {
            return Some(own);
        }
        let (p, substitute) = self.take(bim::KIND_CAST)?;
        if substitute as usize > substitutes.len() {
            return self.refuse(bim::OUTSIDE_ROW);
        }
        let mut default = own;
        if substitute > 0 {
            default = word(&substitutes[substitute as usize - 1], 1);
            derived = if self.casting { casts.derived(default) } else { &[] };
        }
        let mut number = 0;
        if p != default {
            let Some(index) = derived.iter().position(|entry| *entry == p.to_be_bytes()) else {
                return self.refuse(bim::OUTSIDE_ROW);
            };
            number = index as u32 + 1;
        }
        let (first, size) = one_of(substitutes.len() as u32, substitute);
        let (second, more) = one_of(derived.len() as u32, number);
        self.put((first << more | second, size + more), 0);
        Some(p)
    }

    fn attributes(&mut self, first: u32, count: u32) -> Step {
        let table = self.table;
        for row in &table.attributes[first as usize..(first + count) as usize] {
            let (p, present) = self.take(bim::KIND_ATTRIBUTE)?;
            let required = word(row, 1);
            if p != word(row, 0) || present > 1 || present < required {
                return self.refuse(bim::NO_READING);
            }
            if required == 1 {
                self.next += 1;
            } else {
                self.put((u64::from(present), 1), 0);
            }
            if present == 1 {
                let of_type = &table.types[word(row, 2) as usize];
                self.value(word(of_type, 4), word(of_type, 5), word(of_type, 6))?;
            }
        }
        Some(())
    }

    /// The value word of the next event, whose third word is 0.
    #[inline(always)]
    fn word(&mut self, of_kind: u32) -> Step<u32> {
        let (p, q) = self.take(of_kind)?;
        if q != 0 {
            return self.refuse(bim::NO_READING);
        }
        Some(p)
    }

    #[inline(always)]
    fn value(&mut self, of_kind: u32, b: u32, c: u32) -> Step {
        if of_kind >= bim::DATE_TIME {
            return self.date(of_kind);
        }
        let p = self.word(bim::KIND_VALUE)?;
        let code = match of_kind {
            bim::BOOLEAN => choice(1, p),
            bim::RANGED => {
                let (span, above) = (c.wrapping_sub(b), p.wrapping_sub(b));
                if above > span {
                    None
                } else if span <= bim::MOST_FIXED {
                    Some((u64::from(above), width(span)))
                } else {
                    Some(code5(above))
                }
            }
            bim::UNSIGNED => Some(code5(p)),
            bim::SIGNED => {
                let (bits, size) = code5((p as i32).unsigned_abs());
                Some((u64::from(p >> 31) << size | bits, size + 1))
            }
            bim::ENUMERATION => choice(b - 1, p),
            bim::FLOAT => Some((u64::from(p), 32)),
            _ => return self.text(p),
        };
        match code {
            Some(code) => self.put(code, 0),
            None => return self.refuse(bim::OUTSIDE_ROW),
        }
        Some(())
    }

    /// A dateTime or a date, which has a second word.
    #[inline(never)]
    fn date(&mut self, of_kind: u32) -> Step {
        let (p, q) = self.take(bim::KIND_VALUE)?;
        match calendar::days_of(p, q) {
            Some((days, ms)) if of_kind == bim::DATE_TIME => {
                self.pieces[self.filled] = Piece::date_time(days, ms);
                self.filled += 1;
                self.bits += 64;
                self.next += 1;
            }
            Some((days, 0)) => self.put((u64::from(days), 32), 0),
            _ => return self.refuse(bim::OUTSIDE_ROW),
        }
        Some(())
    }

    /// A text of `count` bytes: 20, 23, 16, 25.
    fn text(&mut self, count: u32) -> Step {
        if count > bim::MOST_TEXT {
            return self.refuse(bim::OUTSIDE_ROW);
        }
        let next = self.used + count as usize;
        let Some(text) = self.texts.get(self.used..next) else {
            return self.refuse(bim::TEXT_BYTES);
        };
        let fault = text_fault(text);
        if fault != 0 {
            return self.refuse(fault);
        }
        self.used = next;
        self.put(code5(count), count);
        Some(())
    }

    fn particle(&mut self, index: u32, left: usize) -> Step {
        let row = &self.table.particles[index as usize];
        let [of_kind, p, q, r] = [0, 1, 2, 3].map(|index| word(row, index));
        if of_kind == bim::ELEMENT {
            if self.codes.is_some() {
                return self.with_codes(index, p, q, left);
            }
            return self.element::<false>(index, p, q, left);
        }
        let left = self.enter(left)?;
        match of_kind {
            bim::SEQUENCE => {
                for child in p..p + q {
                    self.particle(child, left)?;
                }
                Some(())
            }
            bim::CHOICE => {
                let branch = self.word(bim::KIND_PICK)?;
                let Some(code) = choice(q - 1, branch) else {
                    return self.refuse(bim::OUTSIDE_ROW);
                };
                self.put(code, 0);
                self.particle(p + branch, left)
            }
            _ => {
                let count = self.word(bim::KIND_TIMES)?;
                let Some(code) = times(q, r, count) else {
                    return self.refuse(bim::OUTSIDE_ROW);
                };
                self.put(code, 0);
                for _ in 0..count {
                    self.particle(p, left)?;
                }
                Some(())
            }
        }
    }
}

/// A number up to `most` in its width.
#[inline(always)]
fn choice(most: u32, value: u32) -> Option<Code> {
    (value <= most).then(|| (u64::from(value), width(most)))
}

/// None, or one of `choices` from 1 on; nothing where there is none to choose from.
#[inline(always)]
fn one_of(choices: u32, number: u32) -> Code {
    match (choices, number) {
        (0, _) => (0, 0),
        (_, 0) => (0, 1),
        _ => (1 << width(choices - 1) | u64::from(number - 1), 1 + width(choices - 1)),
    }
}

/// The count of an occurs row.
#[inline(always)]
fn times(least: u32, most: u32, count: u32) -> Option<Code> {
    if count < least || count > most.min(bim::MOST_TIMES) {
        return None;
    }
    let above = count - least;
    let (bits, size) = if most == bim::UNBOUNDED { code5(above) } else { (u64::from(above), width(most - least)) };
    if least > 0 || most == 1 {
        return Some((bits, size));
    }
    // None or some, and then how many.
    Some(if count == 0 { (0, 1) } else { (1 << size | bits, size + 1) })
}
