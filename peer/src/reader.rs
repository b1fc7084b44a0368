//! The reader: a payload's bits, under a table and a root, as a list of events with texts.
//!
//! Element reads content, content reads particle, particle reads element. A refusal carries number and place up;
//! the path stands in the reader as it was when the refusal came.

use crate::answer::{refusal, Answer, Path, Refusal};
use crate::bim;
use crate::bits::{copy_bytes, fixed, load64};
use crate::codes::{read5, read_choice, read_occurs, read_one_of};
use crate::table::{Particle, Table, Type};
use crate::value;

/// Reads `payload` into `events` (four words each) and `texts`. Spare words and bytes become 0; on refusal all do.
pub fn read(
    table: &[u32],
    party: u32,
    root_name: u32,
    root_type: u32,
    payload: &[u8],
    events: &mut [u32],
    texts: &mut [u8],
) -> Answer {
    let answer = read_into(table, party, root_name, root_type, payload, events, texts);
    // A refused answer counts 0 events and 0 text bytes, so this clears the whole of both.
    events[bim::EVENT_WORDS * answer.events..].fill(0);
    texts[answer.text..].fill(0);
    answer
}

/// The mode of a mode byte: 0F, 4F or 8F, and 1F, 5F or 9F where the table has derivations.
pub fn mode_of(byte: u8, derivations: usize) -> Option<u32> {
    let casting = byte & bim::CASTING_BYTE != 0;
    let mode = match byte & !bim::CASTING_BYTE {
        bim::MODE_NEVER_BYTE => bim::MODE_NEVER,
        bim::MODE_OPTIONAL_BYTE => bim::MODE_OPTIONAL,
        bim::MODE_ALWAYS_BYTE => bim::MODE_ALWAYS,
        _ => return None,
    };
    match casting {
        false => Some(mode),
        true if derivations > 0 => Some(bim::CASTING + mode),
        true => None,
    }
}

/// The table, if it, the root and the party are right (1, then 2, then 26).
pub fn check_root(table: &[u32], party: u32, root_name: u32, root_type: u32) -> Result<Table<'_>, Refusal> {
    let table = Table::new(table).map_err(|word| refusal(bim::TABLE, word))?;
    if root_name > bim::MOST_NAME {
        return Err(refusal(bim::ROOT, 0));
    }
    table.check_type_and_party(root_type, party)?;
    Ok(table)
}

/// What can be refused before the first item: 1, 2, 26, 3, 4.
fn check_call<'a>(
    table: &'a [u32],
    party: u32,
    root_name: u32,
    root_type: u32,
    payload: &[u8],
) -> Result<(Table<'a>, u32), Refusal> {
    let table = check_root(table, party, root_name, root_type)?;
    if payload.is_empty() || payload.len() > bim::MOST_PAYLOAD {
        return Err(refusal(bim::PAYLOAD_SIZE, 0));
    }
    let mode = mode_of(payload[0], table.derivations()).ok_or(refusal(bim::MODE_BYTE, 0))?;
    Ok((table, mode))
}

fn read_into(
    table: &[u32],
    party: u32,
    root_name: u32,
    root_type: u32,
    payload: &[u8],
    events: &mut [u32],
    texts: &mut [u8],
) -> Answer {
    let (table, mode) = match check_call(table, party, root_name, root_type, payload) {
        Ok(checked) => checked,
        Err(refusal) => return Answer::refused(refusal, Path::empty()),
    };
    let room = (events.len() / bim::EVENT_WORDS).min(bim::MOST_EVENTS);
    let mut reader =
        Reader { table, party, payload, mode, at: 8, events, room, stored: 0, texts, used: 0, path: Path::empty() };
    let end = 8 * payload.len();
    let read =
        reader.element(None, root_name, root_type as usize, end, bim::MOST_OPEN).and_then(|()| reader.padding(end));
    match read {
        Ok(()) => Answer::accepted(mode, reader.stored, reader.used, reader.at),
        Err(refusal) => Answer::refused(refusal, reader.path),
    }
}

struct Reader<'a> {
    table: Table<'a>,
    /// Whose marks count.
    party: u32,
    payload: &'a [u8],
    mode: u32,
    /// The next bit.
    at: usize,
    events: &'a mut [u32],
    /// Events that there is room for.
    room: usize,
    stored: usize,
    texts: &'a mut [u8],
    used: usize,
    path: Path,
}

/// An element's flag and length, before its body.
struct Head {
    has_length: bool,
    /// The declared end of the body, or the enclosing one.
    end: usize,
    /// The first bit of the body.
    body: usize,
}

/// An element's substitution and type code, behind its head.
struct Codes {
    /// The effective type.
    of_type: usize,
    /// Counted from 1, or 0.
    substitute: u32,
    /// Of both codes; 0 where the element has neither.
    bits: usize,
}

impl Reader<'_> {
    /// An element and all in it. `particle` is its row, which the root has not; `end` is the wall around it; `open` counts
    /// the rows that may still be opened.
    fn element(
        &mut self,
        particle: Option<usize>,
        name: u32,
        of_type: usize,
        end: usize,
        open: usize,
    ) -> Result<(), Refusal> {
        let open = self.enter(open)?;
        let first = self.at;
        let head = self.head(end)?;
        let codes = match particle {
            Some(row) => self.codes(row, of_type, &head).map_err(|number| refusal(number, head.body))?,
            None => Codes { of_type, substitute: 0, bits: 0 },
        };
        let of_type = codes.of_type;
        let row = self.table.type_row(of_type);
        if !row.held_by(self.party) {
            if !head.has_length {
                return Err(refusal(bim::NOT_HELD, first));
            }
            self.store(first, [bim::KIND_BLANK, name, of_type as u32], head.end - first)?;
            self.at = head.end;
            return Ok(());
        }
        self.store(first, [bim::KIND_START, name, u32::from(head.has_length)], head.body - first)?;
        self.at = head.body;
        self.path.push(name);
        if codes.bits > 0 {
            self.store(self.at, [bim::KIND_CAST, of_type as u32, codes.substitute], codes.bits)?;
            self.at += codes.bits;
        }
        self.attributes(&row, head.end)?;
        self.content(&row, head.end, open)?;
        if head.has_length && self.at != head.end {
            return Err(refusal(bim::CONTENT_SHORT, head.body));
        }
        self.store(self.at, [bim::KIND_END, 0, 0], 0)?;
        self.path.pop();
        Ok(())
    }

    /// Flag and TheLength at the next bit, without moving on: 5, 13, then 10. TheLength may have more groups than it needs.
    fn head(&self, end: usize) -> Result<Head, Refusal> {
        let refused = |number| refusal(number, self.at);
        let mut body = self.at;
        let has_length = match self.mode % bim::CASTING {
            bim::MODE_NEVER => false,
            bim::MODE_OPTIONAL => {
                let flag = fixed(self.payload, end, body, 1).map_err(refused)?;
                body += 1;
                flag == 1
            }
            _ => true,
        };
        if !has_length {
            return Ok(Head { has_length, end, body });
        }
        let length = read5(self.payload, end, body).map_err(refused)?;
        body += length.bits;
        if length.value as usize > end - body {
            return Err(refused(bim::LENGTH));
        }
        Ok(Head { has_length, end: body + length.value as usize, body })
    }

    /// Substitution code, then type code, of the element of this row: 5 and 14 of each.
    fn codes(&self, row: usize, of_type: usize, head: &Head) -> Result<Codes, u32> {
        let substitutes = self.table.substitutes(row);
        let substitute = read_one_of(substitutes.len() as u32, self.payload, head.end, head.body)?;
        let default = match substitute.value {
            0 => of_type,
            number => substitutes[number as usize - 1][1] as usize,
        };
        let derived = if self.mode >= bim::CASTING { self.table.derived(default) } else { &[] };
        let cast = read_one_of(derived.len() as u32, self.payload, head.end, head.body + substitute.bits)?;
        let of_type = match cast.value {
            0 => default,
            number => derived[number as usize - 1] as usize,
        };
        Ok(Codes { of_type, substitute: substitute.value, bits: substitute.bits + cast.bits })
    }

    fn attributes(&mut self, row: &Type, end: usize) -> Result<(), Refusal> {
        for index in row.first_attribute..row.first_attribute + row.attributes {
            let attribute = self.table.attribute_row(index);
            let first = self.at;
            let mut present = 1;
            let mut bits = 0;
            if !attribute.required {
                present = fixed(self.payload, end, first, 1).map_err(|number| refusal(number, first))?;
                bits = 1;
            }
            self.store(first, [bim::KIND_ATTRIBUTE, attribute.name, present], bits)?;
            self.at += bits;
            if present == 1 {
                let of_type = self.table.type_row(attribute.of_type);
                self.value(&of_type, end)?;
            }
        }
        Ok(())
    }

    fn content(&mut self, row: &Type, end: usize, open: usize) -> Result<(), Refusal> {
        match row.content {
            bim::EMPTY => Ok(()),
            bim::SIMPLE => self.value(row, end),
            _ => self.particle(row.a as usize, end, open),
        }
    }

    /// A Value item; a text's room (8) is judged before the event's (7).
    fn value(&mut self, row: &Type, end: usize) -> Result<(), Refusal> {
        let first = self.at;
        let value =
            value::read(row.a, row.b, row.c, self.payload, end, first).map_err(|number| refusal(number, first))?;
        if value.text > self.texts.len() - self.used {
            return Err(refusal(bim::TEXT_ROOM, first));
        }
        self.store(first, [bim::KIND_VALUE, value.word, value.second], value.bits)?;
        self.at += value.bits;
        let target = &mut self.texts[self.used..self.used + value.text];
        copy_bytes(self.payload, self.at - 8 * value.text, target);
        self.used += value.text;
        Ok(())
    }

    fn particle(&mut self, row: usize, end: usize, open: usize) -> Result<(), Refusal> {
        match self.table.particle_row(row) {
            // The row is opened with its element, once.
            Particle::Element { name, of_type } => self.element(Some(row), name, of_type, end, open),
            Particle::Sequence { first, number } => {
                let open = self.enter(open)?;
                (first..first + number).try_for_each(|child| self.particle(child, end, open))
            }
            Particle::Choice { first, number } => {
                let open = self.enter(open)?;
                let branch = read_choice(number as u32, self.payload, end, self.at)
                    .map_err(|number| refusal(number, self.at))?;
                self.store(self.at, [bim::KIND_PICK, branch.value, 0], branch.bits)?;
                self.at += branch.bits;
                self.particle(first + branch.value as usize, end, open)
            }
            Particle::Occurs { child, least, most } => {
                let open = self.enter(open)?;
                let count =
                    read_occurs(least, most, self.payload, end, self.at).map_err(|number| refusal(number, self.at))?;
                self.store(self.at, [bim::KIND_TIMES, count.value, 0], count.bits)?;
                self.at += count.bits;
                // Every round stores an event, so the room ends even the longest loop.
                (0..count.value).try_for_each(|_| self.particle(child, end, open))
            }
        }
    }

    /// One more row is opened, if one may be; gives how many may still be.
    fn enter(&self, open: usize) -> Result<usize, Refusal> {
        open.checked_sub(1).ok_or(refusal(bim::DEPTH, self.at))
    }

    /// Stores an event whose item begins at `first`.
    fn store(&mut self, first: usize, words: [u32; 3], bits: usize) -> Result<(), Refusal> {
        if self.stored == self.room {
            return Err(refusal(bim::EVENT_ROOM, first));
        }
        let [kind, p, q] = words;
        let at = bim::EVENT_WORDS * self.stored;
        self.events[at..at + bim::EVENT_WORDS].copy_from_slice(&[kind, p, q, bits as u32]);
        self.stored += 1;
        Ok(())
    }

    /// After the root fewer than 8 bits are left, all 0.
    fn padding(&self, end: usize) -> Result<(), Refusal> {
        let left = end - self.at;
        if left >= 8 || load64(self.payload, self.at) != 0 {
            return Err(refusal(bim::LEFT_OVER, self.at));
        }
        Ok(())
    }
}
