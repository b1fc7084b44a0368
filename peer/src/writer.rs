//! The writer: a list of events with texts, under a table and a root, as a payload in shortest codes.
//!
//! The walk judges every event and gathers its code; a Start's length is known at its End. Then the codes are put out.

use crate::answer::{refusal, Answer, Path, Refusal};
use crate::bim;
use crate::bits::{BitWriter, Code};
use crate::codes::{write5, write_choice, write_occurs, write_one_of};
use crate::reader::check_root;
use crate::table::{Particle, Table, Type};
use crate::utf8;
use crate::value;

/// Writes `events` with `texts` into `payload`. Bytes past the payload become 0; on refusal all do.
#[allow(clippy::too_many_arguments)] // what a call is given, in its order
pub fn write(
    table: &[u32],
    party: u32,
    root_name: u32,
    root_type: u32,
    mode: u32,
    events: &[u32],
    texts: &[u8],
    payload: &mut [u8],
) -> Answer {
    let written = check_call(table, party, root_name, root_type, mode).and_then(|table| {
        check_shape(events.len(), bim::EVENT_WORDS)?;
        write_into(table, party, root_name, root_type, mode, events, texts, payload)
    });
    answer(written, payload)
}

/// The short call: mode 2, and not 6 where the table has derivations.
pub fn write_lengths(
    table: &[u32],
    party: u32,
    root_name: u32,
    root_type: u32,
    events: &[u32],
    texts: &[u8],
    payload: &mut [u8],
) -> Answer {
    write(table, party, root_name, root_type, bim::MODE_ALWAYS, events, texts, payload)
}

/// The answer of a call that must be refused for a list of `bytes` bytes that are not whole events, or too many.
pub fn refuse_shape(
    table: &[u32],
    party: u32,
    root_name: u32,
    root_type: u32,
    mode: u32,
    bytes: usize,
    payload: &mut [u8],
) -> Answer {
    let refused =
        check_call(table, party, root_name, root_type, mode).and(Err(refusal(bim::NO_READING, bytes / bim::EVENT)));
    answer(refused, payload)
}

/// Clears what no payload byte covers: all of the buffer on refusal.
fn answer(written: Result<Answer, Refusal>, payload: &mut [u8]) -> Answer {
    let answer = written.unwrap_or_else(|refusal| Answer::refused(refusal, Path::empty()));
    payload[answer.bits.div_ceil(8)..].fill(0);
    answer
}

/// What can be refused before the list is looked at: 1, 2, 26, 22.
fn check_call(table: &[u32], party: u32, root_name: u32, root_type: u32, mode: u32) -> Result<Table<'_>, Refusal> {
    let table = check_root(table, party, root_name, root_type)?;
    if mode >= 2 * bim::CASTING
        || mode % bim::CASTING > bim::MODE_ALWAYS
        || mode >= bim::CASTING && table.derivations() == 0
    {
        return Err(refusal(bim::WRITE_MODE, 0));
    }
    Ok(table)
}

/// A list of `units` words or bytes, `event` to an event: whole events, and at most 2,048 of them.
pub fn check_shape(units: usize, event: usize) -> Result<(), Refusal> {
    if !units.is_multiple_of(event) || units / event > bim::MOST_EVENTS {
        return Err(refusal(bim::NO_READING, units / event));
    }
    Ok(())
}

#[allow(clippy::too_many_arguments)] // the same
fn write_into(
    table: Table<'_>,
    party: u32,
    root_name: u32,
    root_type: u32,
    mode: u32,
    events: &[u32],
    texts: &[u8],
    payload: &mut [u8],
) -> Result<Answer, Refusal> {
    let count = events.len() / bim::EVENT_WORDS;
    let mut walk =
        Walk { table, party, mode, events, texts, next: 0, used: 0, bits: 8, pieces: Vec::with_capacity(count) };
    walk.element(None, root_name, root_type as usize, bim::MOST_OPEN)?;
    if walk.next < count {
        let number = if walk.event()?.kind == bim::KIND_BLANK { bim::BLANK } else { bim::NO_READING };
        return Err(refusal(number, walk.next));
    }
    if walk.used < texts.len() {
        return Err(refusal(bim::TEXT_BYTES, count));
    }
    let bytes = walk.bits.div_ceil(8);
    if bytes > bim::MOST_PAYLOAD || bytes > payload.len() {
        return Err(refusal(bim::PAYLOAD_ROOM, 0));
    }
    let mut out = BitWriter::new(payload);
    // The two bits of length coding lie on top; the other modes' bytes are that of mode 0 besides.
    let casting = if mode >= bim::CASTING { bim::CASTING_BYTE } else { 0 };
    let mode_byte = (mode % bim::CASTING) << 6 | u32::from(casting | bim::MODE_NEVER_BYTE);
    out.put(Code::new(mode_byte, 8));
    let mut rest = texts;
    for piece in &walk.pieces {
        out.put(piece.code);
        let (text, after) = rest.split_at(piece.text);
        out.put_bytes(text);
        rest = after;
    }
    out.finish();
    Ok(Answer::accepted(mode, count, texts.len(), walk.bits))
}

/// What one event puts out.
struct Piece {
    code: Code,
    /// Text bytes behind the code.
    text: usize,
}

/// An event's words without the fourth, which the writer ignores.
#[derive(Clone, Copy)]
struct Event {
    kind: u32,
    p: u32,
    q: u32,
}

struct Walk<'a> {
    table: Table<'a>,
    /// Whose marks count.
    party: u32,
    mode: u32,
    events: &'a [u32],
    texts: &'a [u8],
    /// The next event.
    next: usize,
    /// Text bytes used so far.
    used: usize,
    /// Bits so far, the mode byte included.
    bits: usize,
    pieces: Vec<Piece>,
}

impl Walk<'_> {
    /// An element and all in it; the root has no row of its own, and no codes.
    fn element(&mut self, particle: Option<usize>, name: u32, of_type: usize, open: usize) -> Result<(), Refusal> {
        let open = self.enter(open)?;
        let index = self.next;
        let start = self.take(bim::KIND_START, |event| {
            let flag_good = match self.mode % bim::CASTING {
                bim::MODE_NEVER => event.q == 0,
                bim::MODE_OPTIONAL => event.q <= 1,
                _ => event.q == 1,
            };
            event.p == name && flag_good
        })?;
        let piece = self.pieces.len();
        self.put(Code::NONE);
        let before = self.bits;
        let of_type = match particle {
            Some(row) => self.cast(row, of_type)?,
            None => of_type,
        };
        let row = self.table.type_row(of_type);
        if !row.held_by(self.party) {
            return Err(refusal(bim::NOT_HELD, index));
        }
        self.attributes(&row)?;
        self.content(&row, open)?;
        self.take(bim::KIND_END, |event| event.p == 0 && event.q == 0)?;
        self.put(Code::NONE);

        let flag = if self.mode % bim::CASTING == bim::MODE_OPTIONAL { Code::new(start.q, 1) } else { Code::NONE };
        let length = if start.q == 1 {
            // 2,048 texts of 4,095 bytes stay far below 2^32 bits.
            write5((self.bits - before) as u32)
        } else {
            Code::NONE
        };
        let code = flag.then(length);
        self.pieces[piece].code = code;
        self.bits += code.width as usize;
        Ok(())
    }

    /// The effective type of this row's element, by the event that tells it where the row has codes: 18, 19, 20.
    fn cast(&mut self, row: usize, of_type: usize) -> Result<usize, Refusal> {
        let derived_from = |of_type| if self.mode >= bim::CASTING { self.table.derived(of_type) } else { &[] };
        let substitutes = self.table.substitutes(row);
        if substitutes.is_empty() && derived_from(of_type).is_empty() {
            return Ok(of_type);
        }
        let event = self.take(bim::KIND_CAST, |_| true)?;
        let Some(substitute) = write_one_of(substitutes.len() as u32, event.q) else {
            return self.refuse(bim::OUTSIDE_ROW);
        };
        let default = match event.q {
            0 => of_type as u32,
            number => substitutes[number as usize - 1][1],
        };
        let derived = derived_from(default as usize);
        let number = match derived.iter().position(|&entry| entry == event.p) {
            _ if event.p == default => 0,
            Some(index) => index as u32 + 1,
            None => return self.refuse(bim::OUTSIDE_ROW),
        };
        // The number is that of an entry, so that there is a code.
        let cast = write_one_of(derived.len() as u32, number).unwrap_or(Code::NONE);
        self.put(substitute.then(cast));
        Ok(event.p as usize)
    }

    fn attributes(&mut self, row: &Type) -> Result<(), Refusal> {
        for index in row.first_attribute..row.first_attribute + row.attributes {
            let attribute = self.table.attribute_row(index);
            let least = u32::from(attribute.required);
            let event =
                self.take(bim::KIND_ATTRIBUTE, |event| event.p == attribute.name && (least..=1).contains(&event.q))?;
            self.put(if attribute.required { Code::NONE } else { Code::new(event.q, 1) });
            if event.q == 1 {
                let of_type = self.table.type_row(attribute.of_type);
                self.value(&of_type)?;
            }
        }
        Ok(())
    }

    fn content(&mut self, row: &Type, open: usize) -> Result<(), Refusal> {
        match row.content {
            bim::EMPTY => Ok(()),
            bim::SIMPLE => self.value(row),
            _ => self.particle(row.a as usize, open),
        }
    }

    fn value(&mut self, row: &Type) -> Result<(), Refusal> {
        let event = self.take(bim::KIND_VALUE, |event| event.q == 0 || value::is_date(row.a))?;
        let code = match value::write(row.a, row.b, row.c, event.p, event.q) {
            Ok(code) => code,
            Err(number) => return self.refuse(number),
        };
        let text = if row.a == bim::TEXT { event.p as usize } else { 0 };
        let left = &self.texts[self.used..];
        if text > left.len() {
            return self.refuse(bim::TEXT_BYTES);
        }
        let fault = utf8::check(&left[..text]);
        if fault != 0 {
            return self.refuse(fault);
        }
        self.put(code);
        self.put_text(text);
        Ok(())
    }

    fn particle(&mut self, row: usize, open: usize) -> Result<(), Refusal> {
        match self.table.particle_row(row) {
            Particle::Element { name, of_type } => self.element(Some(row), name, of_type, open),
            Particle::Sequence { first, number } => {
                let open = self.enter(open)?;
                (first..first + number).try_for_each(|child| self.particle(child, open))
            }
            Particle::Choice { first, number } => {
                let open = self.enter(open)?;
                let branch = self.number(bim::KIND_PICK, |p| write_choice(number as u32, p))?;
                self.particle(first + branch as usize, open)
            }
            Particle::Occurs { child, least, most } => {
                let open = self.enter(open)?;
                let count = self.number(bim::KIND_TIMES, |p| write_occurs(least, most, p))?;
                (0..count).try_for_each(|_| self.particle(child, open))
            }
        }
    }

    /// A Pick or Times event, with the number it names.
    fn number(&mut self, kind: u32, code: impl Fn(u32) -> Option<Code>) -> Result<u32, Refusal> {
        let event = self.take(kind, |event| event.q == 0)?;
        match code(event.p) {
            Some(code) => self.put(code),
            None => return self.refuse(bim::OUTSIDE_ROW),
        }
        Ok(event.p)
    }

    /// One more row is opened, if one may be. An event is wanted in it, and its lack (18) stands before 6.
    fn enter(&self, open: usize) -> Result<usize, Refusal> {
        self.event()?;
        open.checked_sub(1).ok_or(refusal(bim::DEPTH, self.next))
    }

    /// The next event; 18 at the count where none is left.
    fn event(&self) -> Result<Event, Refusal> {
        match self.events.get(4 * self.next..4 * self.next + 4) {
            Some(&[kind, p, q, _]) => Ok(Event { kind, p, q }),
            _ => Err(refusal(bim::NO_READING, self.next)),
        }
    }

    /// The next event, judged but not yet passed: a Blank is 19, one of another kind or with wrong words is 18.
    fn take(&self, kind: u32, good: impl Fn(Event) -> bool) -> Result<Event, Refusal> {
        let event = self.event()?;
        if event.kind == bim::KIND_BLANK {
            return self.refuse(bim::BLANK);
        }
        if event.kind != kind || !good(event) {
            return self.refuse(bim::NO_READING);
        }
        Ok(event)
    }

    fn refuse<T>(&self, number: u32) -> Result<T, Refusal> {
        Err(refusal(number, self.next))
    }

    /// Passes the next event with its code.
    fn put(&mut self, code: Code) {
        self.pieces.push(Piece { code, text: 0 });
        self.bits += code.width as usize;
        self.next += 1;
    }

    /// Adds text bytes to the last event.
    fn put_text(&mut self, text: usize) {
        if let Some(piece) = self.pieces.last_mut() {
            piece.text = text;
        }
        self.bits += 8 * text;
        self.used += text;
    }
}
