//! The reader, for speed.

use super::bits::{any_five, copy_text, five, front, width, window};
use super::calendar;
use super::table::{word, Casts, Table};
use super::{check_party, fill_area, refuse, whole_area};
use crate::bim;
use crate::reader::mode_of;
use crate::utf8;

/// Reads a payload; `events`, `texts` and `area` are written.
#[allow(clippy::too_many_arguments)] // the boundary's names and order are fixed
pub fn read(
    table: &[u8],
    party: u32,
    root_name: u32,
    root_type: u32,
    payload: &[u8],
    events: &mut [u8],
    texts: &mut [u8],
    area: &mut [u8],
) -> u32 {
    let Some(area) = whole_area(area) else {
        events.fill(0);
        texts.fill(0);
        return bim::AREA_SIZE;
    };
    let (table, mode) = match begin(table, party, root_name, root_type, payload) {
        Ok(begun) => begun,
        Err(refused) => {
            events.fill(0);
            texts.fill(0);
            return refuse(area, refused, &[]);
        }
    };
    let slots = events.as_chunks_mut::<{ bim::EVENT }>().0;
    let room = slots.len().min(bim::MOST_EVENTS);
    let mut reader = Reader {
        table,
        mark: 1 << party,
        payload,
        lengths: mode % bim::CASTING,
        casting: mode >= bim::CASTING,
        codes: table.codes(mode >= bim::CASTING),
        at: 8,
        events: &mut slots[..room],
        stored: 0,
        texts,
        used: 0,
        number: bim::ACCEPTED,
        place: 0,
        names: [0; bim::MOST_NAMES],
        open: 0,
    };
    let end = 8 * payload.len();
    let read = reader.element::<false>(0, root_name, root_type, end, bim::MOST_OPEN).and_then(|()| reader.padding(end));
    let Reader { at, stored, used, number, place, names, open, .. } = reader;
    if read.is_none() {
        events.fill(0);
        texts.fill(0);
        return refuse(area, (number, place), &names[..open]);
    }
    events[bim::EVENT * stored..].fill(0);
    texts[used..].fill(0);
    fill_area(area, [0, mode, stored as u32, used as u32, at as u32, 0], &[]);
    bim::ACCEPTED
}

/// What comes before the first item: 1, 2, 26, 3, 4 with their places.
fn begin<'a>(
    table: &'a [u8],
    party: u32,
    root_name: u32,
    root_type: u32,
    payload: &[u8],
) -> Result<(Table<'a>, u32), (u32, usize)> {
    let table = Table::new(table).map_err(|word| (bim::TABLE, word))?;
    table.check_root(root_name, root_type)?;
    check_party(party)?;
    if payload.is_empty() || payload.len() > bim::MOST_PAYLOAD {
        return Err((bim::PAYLOAD_SIZE, 0));
    }
    let mode = mode_of(payload[0], table.derivations()).ok_or((bim::MODE_BYTE, 0))?;
    Ok((table, mode))
}

struct Reader<'a> {
    table: Table<'a>,
    /// The party's bit of a held word.
    mark: u32,
    payload: &'a [u8],
    /// Of the mode, length coding.
    lengths: u32,
    casting: bool,
    /// Where any element can have codes.
    codes: Option<Casts<'a>>,
    /// The next bit.
    at: usize,
    /// As many as there is room for.
    events: &'a mut [[u8; bim::EVENT]],
    stored: usize,
    texts: &'a mut [u8],
    used: usize,
    /// Of a refusal.
    number: u32,
    place: usize,
    /// Of the open elements, as many as `open` says.
    names: [u16; bim::MOST_NAMES],
    open: usize,
}

/// What an element's codes say, and the first bit behind them.
#[derive(Clone, Copy)]
struct Cast {
    of_type: u32,
    substitute: u32,
    next: usize,
}

/// An answer of nothing is a refusal, which then stands in the reader.
type Step<T = ()> = Option<T>;

impl Reader<'_> {
    #[cold]
    #[inline(never)]
    fn refuse<T>(&mut self, number: u32, place: usize) -> Step<T> {
        (self.number, self.place) = (number, place);
        None
    }

    #[inline(always)]
    fn or_refuse<T>(&mut self, read: Result<T, u32>, place: usize) -> Step<T> {
        match read {
            Ok(read) => Some(read),
            Err(number) => self.refuse(number, place),
        }
    }

    /// Stores the event of the item from `at` to `next`, and goes on there.
    #[inline(always)]
    fn store(&mut self, kind: u32, p: u32, q: u32, next: usize) -> Step {
        let Some(slot) = self.events.get_mut(self.stored) else {
            return self.refuse(bim::EVENT_ROOM, self.at);
        };
        let words = [kind, p, q, (next - self.at) as u32].map(u32::to_be_bytes);
        slot.copy_from_slice(words.as_flattened());
        self.stored += 1;
        self.at = next;
        Some(())
    }

    /// An element and all in it, below the wall `end`; `left` rows may still be opened. With `CODES` it may have those of its particle row.
    #[inline(always)]
    fn element<const CODES: bool>(&mut self, particle: u32, name: u32, of_type: u32, end: usize, left: usize) -> Step {
        let first = self.at;
        if left == 0 {
            return self.refuse(bim::DEPTH, first);
        }
        let mut coded = self.lengths == bim::MODE_ALWAYS;
        let mut body = first;
        let mut wall = end;
        if self.lengths > bim::MODE_NEVER {
            let mut bits = window(self.payload, first);
            if self.lengths == bim::MODE_OPTIONAL {
                if first == end {
                    return self.refuse(bim::PAST_END, first);
                }
                coded = bits >> 63 == 1;
                bits <<= 1;
                body += 1;
            }
            if coded {
                let (length, groups) = self.or_refuse(any_five(bits, end - body), first)?;
                body += 5 * groups;
                if length as usize > end - body {
                    return self.refuse(bim::LENGTH, first);
                }
                wall = body + length as usize;
            }
        }
        let mut cast = Cast { of_type, substitute: 0, next: body };
        if CODES {
            cast = self.cast(particle, cast, wall)?;
        }
        let of_type = cast.of_type;
        let row = &self.table.types[of_type as usize];
        if word(row, 0) & self.mark == 0 {
            if !coded {
                return self.refuse(bim::NOT_HELD, first);
            }
            return self.store(bim::KIND_BLANK, name, of_type, wall);
        }
        self.store(bim::KIND_START, name, u32::from(coded), body)?;
        self.names[self.open] = name as u16;
        self.open += 1;
        if CODES && cast.next > body {
            self.store(bim::KIND_CAST, of_type, cast.substitute, cast.next)?;
        }
        let attributes = word(row, 3);
        if attributes > 0 {
            self.attributes(word(row, 2), attributes, wall)?;
        }
        match word(row, 1) {
            bim::EMPTY => {}
            bim::SIMPLE => self.value(word(row, 4), word(row, 5), word(row, 6), wall)?,
            _ => self.particle(word(row, 4), wall, left - 1)?,
        }
        if coded && self.at != wall {
            return self.refuse(bim::CONTENT_SHORT, body);
        }
        self.store(bim::KIND_END, 0, 0, self.at)?;
        self.open -= 1;
        Some(())
    }

    /// An element that may have codes: apart, so that without any it costs one test.
    #[inline(never)]
    fn with_codes(&mut self, particle: u32, name: u32, of_type: u32, end: usize, left: usize) -> Step {
        self.element::<true>(particle, name, of_type, end, left)
    }

    /// The codes of an element behind its head, as far as its row has any.
    #[inline(always)]
    fn cast(&mut self, particle: u32, own: Cast, wall: usize) -> Step<Cast> {
        let Some(casts) = self.codes else {
            return Some(own);
        };
        let Cast { mut of_type, mut substitute, next: body } = own;
        let mut next = body;
        let substitutes = casts.substitutes(particle);
        if !substitutes.is_empty() {
            let read = one_of(substitutes.len() as u32, window(self.payload, next), wall - next);
            let (number, size) = self.or_refuse(read, body)?;
            if number > 0 {
                of_type = word(&substitutes[number as usize - 1], 1);
            }
            substitute = number;
            next += size;
        }
        if self.casting {
            let derived = casts.derived(of_type);
            if !derived.is_empty() {
                let read = one_of(derived.len() as u32, window(self.payload, next), wall - next);
                let (number, size) = self.or_refuse(read, body)?;
                if number > 0 {
                    of_type = u32::from_be_bytes(derived[number as usize - 1]);
                }
                next += size;
            }
        }
        Some(Cast { of_type, substitute, next })
    }

    fn attributes(&mut self, first: u32, count: u32, end: usize) -> Step {
        let table = self.table;
        for row in &table.attributes[first as usize..(first + count) as usize] {
            let at = self.at;
            let mut present = 1;
            let mut next = at;
            if word(row, 1) == 0 {
                if at == end {
                    return self.refuse(bim::PAST_END, at);
                }
                present = front(window(self.payload, at), 1);
                next += 1;
            }
            self.store(bim::KIND_ATTRIBUTE, word(row, 0), present, next)?;
            if present == 1 {
                let of_type = &table.types[word(row, 2) as usize];
                self.value(word(of_type, 4), word(of_type, 5), word(of_type, 6), end)?;
            }
        }
        Some(())
    }

    #[inline(always)]
    fn value(&mut self, of_kind: u32, b: u32, c: u32, end: usize) -> Step {
        let at = self.at;
        let room = end - at;
        let bits = window(self.payload, at);
        let read = match of_kind {
            bim::BOOLEAN => choice(1, bits, room),
            bim::RANGED => {
                let span = c.wrapping_sub(b);
                let above = if span <= bim::MOST_FIXED { choice(span, bits, room) } else { up_to(span, bits, room) };
                above.map(|(above, size)| (b.wrapping_add(above), size))
            }
            bim::UNSIGNED => five(bits, room),
            bim::SIGNED => signed(bits, room),
            bim::ENUMERATION => choice(b - 1, bits, room),
            bim::FLOAT if room < 32 => Err(bim::PAST_END),
            bim::FLOAT => Ok((front(bits, 32), 32)),
            bim::TEXT => {
                let (count, size) = self.or_refuse(up_to(bim::MOST_TEXT, bits, room), at)?;
                return self.text(count, at + size, end);
            }
            _ => return self.date(of_kind, end),
        };
        let (word, size) = self.or_refuse(read, at)?;
        self.store(bim::KIND_VALUE, word, 0, at + size)
    }

    /// A dateTime or a date: 5, 14, 7. Apart, so that the other kinds do not pay for it.
    #[inline(never)]
    fn date(&mut self, of_kind: u32, end: usize) -> Step {
        let at = self.at;
        let size = if of_kind == bim::DATE_TIME { 64 } else { 32 };
        if end - at < size {
            return self.refuse(bim::PAST_END, at);
        }
        let days = front(window(self.payload, at), 32);
        let ms = if size == 64 { front(window(self.payload, at + 32), 32) } else { 0 };
        if ms >= bim::DAY_MS {
            return self.refuse(bim::NO_SUCH_CODE, at);
        }
        let (word, second) = calendar::words_of(days, ms);
        self.store(bim::KIND_VALUE, word, second, at + size)
    }

    /// The bytes of a text from `first` on: 5, 16, 25, 8, 7. They are copied before they are judged: a refusal clears them.
    fn text(&mut self, count: u32, first: usize, end: usize) -> Step {
        let bytes = count as usize;
        let next = first + 8 * bytes;
        if next > end {
            return self.refuse(bim::PAST_END, self.at);
        }
        let fault = match self.texts.get_mut(self.used..self.used + bytes) {
            Some(target) => copy_text(self.payload, first, target),
            None => match utf8::check_at(self.payload, first, bytes) {
                0 => bim::TEXT_ROOM,
                fault => fault,
            },
        };
        if fault != 0 {
            return self.refuse(fault, self.at);
        }
        self.used += bytes;
        self.store(bim::KIND_VALUE, count, 0, next)
    }

    fn particle(&mut self, index: u32, end: usize, left: usize) -> Step {
        let row = &self.table.particles[index as usize];
        let [of_kind, p, q, r] = [0, 1, 2, 3].map(|index| word(row, index));
        if of_kind == bim::ELEMENT {
            if self.codes.is_some() {
                return self.with_codes(index, p, q, end, left);
            }
            return self.element::<false>(index, p, q, end, left);
        }
        let at = self.at;
        if left == 0 {
            return self.refuse(bim::DEPTH, at);
        }
        let left = left - 1;
        match of_kind {
            bim::SEQUENCE => {
                for child in p..p + q {
                    self.particle(child, end, left)?;
                }
                Some(())
            }
            bim::CHOICE => {
                let read = choice(q - 1, window(self.payload, at), end - at);
                let (branch, size) = self.or_refuse(read, at)?;
                self.store(bim::KIND_PICK, branch, 0, at + size)?;
                self.particle(p + branch, end, left)
            }
            _ => {
                let read = times(q, r, window(self.payload, at), end - at);
                let (count, size) = self.or_refuse(read, at)?;
                self.store(bim::KIND_TIMES, count, 0, at + size)?;
                for _ in 0..count {
                    self.particle(p, end, left)?;
                }
                Some(())
            }
        }
    }

    /// After the root fewer than 8 bits are left, all 0.
    fn padding(&mut self, end: usize) -> Step {
        if end - self.at >= 8 || window(self.payload, self.at) != 0 {
            return self.refuse(bim::LEFT_OVER, self.at);
        }
        Some(())
    }
}

/// A sign bit and a magnitude: 13 stands before 15.
#[inline(always)]
fn signed(bits: u64, room: usize) -> Result<(u32, usize), u32> {
    if room == 0 {
        return Err(bim::PAST_END);
    }
    let negative = (bits >> 63) as u32;
    let (magnitude, size) = five(bits << 1, room - 1)?;
    if magnitude > i32::MAX as u32 + negative {
        return Err(bim::TOO_LARGE);
    }
    if negative == 1 {
        if magnitude == 0 {
            return Err(bim::MINUS_ZERO);
        }
        return Ok((magnitude.wrapping_neg(), 1 + size));
    }
    Ok((magnitude, 1 + size))
}

/// A number up to `most` in its width.
#[inline(always)]
fn choice(most: u32, bits: u64, room: usize) -> Result<(u32, usize), u32> {
    let size = width(most);
    if size as usize > room {
        return Err(bim::PAST_END);
    }
    let value = front(bits, size);
    if value > most {
        return Err(bim::NO_SUCH_CODE);
    }
    Ok((value, size as usize))
}

/// None, or one of `choices` from 1 on.
#[inline(always)]
fn one_of(choices: u32, bits: u64, room: usize) -> Result<(u32, usize), u32> {
    if room == 0 {
        return Err(bim::PAST_END);
    }
    if bits >> 63 == 0 {
        return Ok((0, 1));
    }
    choice(choices - 1, bits << 1, room - 1).map(|(number, size)| (number + 1, size + 1))
}

/// A vluimsbf5 up to `most`.
#[inline(always)]
fn up_to(most: u32, bits: u64, room: usize) -> Result<(u32, usize), u32> {
    let (value, size) = five(bits, room)?;
    if value > most {
        return Err(bim::TOO_LARGE);
    }
    Ok((value, size))
}

/// The count of an occurs row.
#[inline(always)]
fn times(least: u32, most: u32, bits: u64, room: usize) -> Result<(u32, usize), u32> {
    let shunt = usize::from(least == 0 && most > 1);
    if shunt == 1 {
        if room == 0 {
            return Err(bim::PAST_END);
        }
        if bits >> 63 == 0 {
            return Ok((0, 1));
        }
    }
    let (bits, room) = (bits << shunt, room - shunt);
    let (above, size) = if most == bim::UNBOUNDED {
        up_to(bim::MOST_TIMES - least, bits, room)?
    } else {
        choice(most - least, bits, room)?
    };
    if shunt == 1 && above == 0 {
        return Err(bim::NO_SUCH_CODE);
    }
    Ok((least + above, shunt + size))
}
