//! The three demands as properties. Each gives `Err` with what was violated.
//!
//! Every call goes through `read` or `write` here: dirty buffers in, and the first demand's shape and the model's
//! answer checked on what comes out.

use crate::answer::{refusal, Answer, Path};
use crate::bim;
use crate::call::{Call, Read, Set, Write, READER, SETTER, SHORT_WRITER, WRITER};
use crate::cases::Case;
use crate::model;
use crate::padding::lengths_are_shortest;
use crate::rows::{held, held_word};
use crate::tally::Numbers;
use crate::{reader, table, tally, writer};

/// The refusals that substitution, casting and dates have of their own, by the item that is refused as `model` names it.
#[rustfmt::skip]
pub const ITEMS: [Numbers; 34] = [
    ("table: D", &[bim::TABLE]), ("table: S", &[bim::TABLE]), ("table: derived entry", &[bim::TABLE]),
    ("table: substitute's name", &[bim::TABLE]), ("table: substitute's type", &[bim::TABLE]),
    ("table: first derived", &[bim::TABLE]), ("table: derived past D", &[bim::TABLE]),
    ("table: derived from itself", &[bim::TABLE]), ("table: derived twice", &[bim::TABLE]),
    ("table: first substitute", &[bim::TABLE]), ("table: substitutes past S", &[bim::TABLE]),
    ("table: no element", &[bim::TABLE]),
    ("casting, no derivations", &[bim::MODE_BYTE, bim::WRITE_MODE]),
    ("mode 3", &[bim::WRITE_MODE]), ("mode over 6", &[bim::WRITE_MODE]),
    ("substitution flag", &[bim::PAST_END]), ("substitution code", &[bim::PAST_END, bim::NO_SUCH_CODE]),
    ("cast flag", &[bim::PAST_END]), ("cast code", &[bim::PAST_END, bim::NO_SUCH_CODE]),
    ("element with codes", &[bim::EVENT_ROOM, bim::NOT_HELD]),
    ("element of another type", &[bim::EVENT_ROOM, bim::NOT_HELD]), ("cast event", &[bim::EVENT_ROOM]),
    ("no event for the codes", &[bim::NO_READING]), ("no cast", &[bim::NO_READING, bim::BLANK]),
    ("written element with codes", &[bim::NOT_HELD]), ("written element of another type", &[bim::NOT_HELD]),
    ("stray cast", &[bim::NO_READING]), ("substitute", &[bim::OUTSIDE_ROW]), ("effective type", &[bim::OUTSIDE_ROW]),
    ("dateTime", &[bim::PAST_END, bim::NO_SUCH_CODE, bim::EVENT_ROOM]), ("date", &[bim::PAST_END, bim::EVENT_ROOM]),
    ("written dateTime", &[bim::OUTSIDE_ROW]), ("written date", &[bim::OUTSIDE_ROW]),
    ("second word of no date", &[bim::NO_READING]),
];

/// Who answers where a list is to be written and no mode is asked.
const SHORT: &str = "short writer";

/// What the run has met so far.
#[derive(Default)]
pub struct Tally {
    /// Answers of reader and writer.
    pub met: tally::Tally,
    /// Table checks: right, wrong.
    pub tables: [u64; 2],
    /// Accepted readings with a Blank.
    pub blanks: u64,
    /// What was refused of substitution, casting and dates.
    pub items: tally::Tally,
    /// Accepted readings with a padded TheLength, those with a Blank among them.
    pub padded: u64,
    /// Accepted readings without a Blank, written back to the same bytes.
    pub identical: u64,
    /// The same, written back in fewer bits.
    pub shorter: u64,
    /// What the pairs of tables showed.
    pub pairs: Pairs,
    /// Readings and writings that settings by others left the same.
    pub others: u64,
    /// Pairs of settings that gave the same in both orders.
    pub commuted: u64,
}

impl Tally {
    /// Whether every refusal that substitution, casting and dates have of their own was met; tells those that were not.
    pub fn items_are_whole(&self) -> bool {
        self.items.has_met(&ITEMS)
    }

    /// Whether the promises that parties have among them were tried; tells where one was not.
    pub fn parties_are_whole(&self) -> bool {
        let whole = self.others > 0 && self.commuted > 0;
        if !whole {
            println!("NEVER MET: settings by others, or in both orders");
        }
        whole
    }

    /// Whether reader, writer and setter were met with every number that they can answer, and both parts of demand 2 were tried; tells what
    /// was not.
    pub fn is_whole(&self) -> bool {
        // 24 is the C boundary's.
        let [reader @ .., _] = &READER;
        let [writer @ .., _] = &WRITER;
        let both = self.identical > 0 && self.shorter > 0;
        if !both {
            println!("NEVER MET: a part of demand 2");
        }
        let [short @ .., _] = &SHORT_WRITER;
        let [setter @ .., _] = &SETTER;
        self.met.has_met(&[("reader", reader), ("writer", writer), (SHORT, short), ("setter", setter)]) && both
    }
}

/// A reader's answer with its buffers.
#[derive(Clone, Debug, PartialEq, Eq)]
pub struct Outcome {
    /// The answer.
    pub answer: Answer,
    /// The event words.
    pub events: Vec<u32>,
    /// The text bytes.
    pub texts: Vec<u8>,
}

impl Outcome {
    /// The stored events.
    pub fn list(&self) -> Vec<[u32; 4]> {
        self.events
            .chunks_exact(4)
            .take(self.answer.events)
            .map(|event| [event[0], event[1], event[2], event[3]])
            .collect()
    }

    /// The stored texts.
    pub fn text(&self) -> &[u8] {
        &self.texts[..self.answer.text]
    }
}

/// Passes where `good`, and else tells what was violated.
fn demand(good: bool, what: impl FnOnce() -> String) -> Result<(), String> {
    if good {
        Ok(())
    } else {
        Err(what())
    }
}

/// Demand 1 of an answer: a refusal counts nothing, an acceptance has neither place nor path.
fn answer_has_its_shape(answer: &Answer) -> bool {
    if answer.is_accepted() {
        answer.place == 0 && answer.path.names().is_empty()
    } else {
        answer.number != bim::AREA_SIZE && (answer.mode, answer.events, answer.text, answer.bits) == (0, 0, 0, 0)
    }
}

/// The table check, against the model's.
pub fn check_table(tally: &mut Tally, words: &[u32]) -> Result<Option<usize>, String> {
    let fault = table::check(words).err();
    tally.tables[usize::from(fault.is_some())] += 1;
    let expected = model::check_table(words);
    demand(fault == expected, || format!("table check says {fault:?}, the model {expected:?}"))?;
    if let Some(part) = fault.and_then(|word| model::part(words, word)) {
        tally.items.count(part, bim::TABLE);
    }
    Ok(fault)
}

/// Reads into dirty buffers: demand 1's shape, and demand 2's "exactly the reading" against the model.
pub fn read(tally: &mut Tally, call: &Read) -> Result<Outcome, String> {
    let mut events = vec![0xdddd_dddd; call.event_words];
    let mut texts = vec![0xdd; call.text_room];
    let (name, of_type) = call.root;
    let answer = reader::read(&call.table, call.party, name, of_type, &call.payload, &mut events, &mut texts);
    tally.met.count("reader", answer.number);
    demand(answer_has_its_shape(&answer), || format!("demand 1: the answer's shape: {answer:?}"))?;
    // On refusal both counts are 0, so this is "every output buffer all zeros".
    let spare_is_zero =
        events[4 * answer.events..].iter().all(|&word| word == 0) && texts[answer.text..].iter().all(|&byte| byte == 0);
    demand(spare_is_zero, || format!("demand 1: spare output is not 0: {answer:?}"))?;
    let outcome = Outcome { answer, events, texts };
    let room = call.event_words / 4;
    let model::Told { reading: expected, item, unseen } =
        model::read(&call.table, call.party, name, of_type, &call.payload, room, call.text_room);
    let got = reading_of(&outcome);
    demand(got == expected, || format!("demand 2: the reader gives {got:?}, the model {expected:?}"))?;
    if !item.is_empty() {
        tally.items.count(item, answer.number);
    }
    if answer.is_accepted() {
        let list = outcome.list();
        let sum: usize = list.iter().map(|event| event[3] as usize).sum();
        demand(sum + 8 == answer.bits, || format!("the events' bits and 8 are not the bits used: {answer:?}"))?;
        tally.padded += u64::from(!lengths_are_shortest(answer.mode, &list));
        if list.iter().any(|event| event[0] == bim::KIND_BLANK) {
            tally.blanks += 1;
            blanks_unseen(call, &outcome, &unseen)?;
        } else {
            written_back(tally, call, &outcome)?;
        }
        ends_by_itself(call, &outcome)?;
    }
    Ok(outcome)
}

/// No payload begins another: followed by itself it is refused where it ends, in the same room, and is what is cut there.
fn ends_by_itself(call: &Read, outcome: &Outcome) -> Result<(), String> {
    let butted = call.payload.repeat(2);
    let used = outcome.answer.bits;
    let mut events = vec![0; call.event_words];
    let answer = reader::read(
        &call.table,
        call.party,
        call.root.0,
        call.root.1,
        &butted,
        &mut events,
        &mut vec![0; call.text_room],
    );
    let left = Answer::refused(refusal(bim::LEFT_OVER, used), Path::empty());
    let long = Answer::refused(refusal(bim::PAYLOAD_SIZE, 0), Path::empty());
    let expected = if butted.len() > bim::MOST_PAYLOAD { long } else { left };
    demand(answer == expected && used.div_ceil(8) == call.payload.len(), || {
        format!("{outcome:?}, and followed by itself {answer:?}")
    })
}

/// A Blank's codes are the only bits of it that are looked at: with all others turned over, the reading is the same.
fn blanks_unseen(call: &Read, outcome: &Outcome, unseen: &[std::ops::Range<usize>]) -> Result<(), String> {
    let mut payload = call.payload.clone();
    unseen.iter().cloned().flatten().for_each(|bit| payload[bit / 8] ^= 0x80 >> (bit % 8));
    let mut events = vec![0xdddd_dddd; call.event_words];
    let mut texts = vec![0xdd; call.text_room];
    let answer = reader::read(&call.table, call.party, call.root.0, call.root.1, &payload, &mut events, &mut texts);
    let turned = Outcome { answer, events, texts };
    demand(turned == *outcome, || format!("a Blank is looked into: {outcome:?} turns into {turned:?}"))
}

/// An outcome in the model's words.
fn reading_of(outcome: &Outcome) -> model::Reading {
    let answer = &outcome.answer;
    if answer.is_accepted() {
        model::Reading::Accepted {
            mode: answer.mode,
            events: outcome.list(),
            texts: outcome.text().to_vec(),
            bits: answer.bits,
        }
    } else {
        model::Reading::Refused {
            number: answer.number,
            place: answer.place as usize,
            path: answer.path.names().to_vec(),
        }
    }
}

/// Demand 2: bytes read without blanks are written back, identically where every TheLength is shortest. Else fewer bits are written, and
/// they read, in the same rooms, to the same mode, texts and first three words of every event.
fn written_back(tally: &mut Tally, call: &Read, outcome: &Outcome) -> Result<(), String> {
    let (read_as, list) = (&outcome.answer, outcome.list());
    let mut payload = vec![0xdd; call.payload.len()];
    let events = &outcome.events[..4 * read_as.events];
    let (name, of_type) = call.root;
    let answer =
        writer::write(&call.table, call.party, name, of_type, read_as.mode, events, outcome.text(), &mut payload);
    if lengths_are_shortest(read_as.mode, &list) {
        demand(answer == *read_as, || format!("demand 2: read as {read_as:?}, written back as {answer:?}"))?;
        demand(payload == call.payload, || {
            format!("demand 2: {:02x?} is written back as {payload:02x?}", call.payload)
        })?;
        tally.identical += 1;
        return Ok(());
    }
    demand(Answer { bits: read_as.bits, ..answer } == *read_as && answer.bits < read_as.bits, || {
        format!("demand 2: padded and read as {read_as:?}, written back as {answer:?}")
    })?;
    payload.truncate(answer.bits.div_ceil(8));
    let again = read(tally, &Read { payload, ..call.clone() })?;
    let words = |list: &[[u32; 4]]| list.iter().map(|event| [event[0], event[1], event[2]]).collect::<Vec<_>>();
    let same = again.answer == answer && again.text() == outcome.text() && words(&again.list()) == words(&list);
    demand(same && lengths_are_shortest(answer.mode, &again.list()), || {
        format!("demand 2: padded and read as {outcome:?}, written back and read as {again:?}")
    })?;
    tally.shorter += 1;
    Ok(())
}

/// Writes into a dirty buffer: demand 1's shape, the model's answer, and demand 2's reading back.
pub fn write(tally: &mut Tally, call: &Write) -> Result<(Answer, Vec<u8>), String> {
    let mut payload = vec![0xdd; call.room];
    let (name, of_type) = call.root;
    let answer = call.ask(&mut payload);
    tally.met.count(if call.mode.is_some() { "writer" } else { SHORT }, answer.number);
    demand(answer_has_its_shape(&answer) && answer.path.names().is_empty(), || {
        format!("demand 1: the answer's shape: {answer:?}")
    })?;
    let bytes = answer.bits.div_ceil(8);
    demand(payload[bytes..].iter().all(|&byte| byte == 0), || format!("demand 1: spare payload is not 0: {answer:?}"))?;
    let mode = call.mode.unwrap_or(bim::MODE_ALWAYS);
    let (expected, item) =
        model::write(&call.table, call.party, name, of_type, mode, &call.events, &call.texts, call.room);
    if !item.is_empty() {
        tally.items.count(item, answer.number);
    }
    let got = if answer.is_accepted() {
        Ok((payload[..bytes].to_vec(), answer.bits))
    } else {
        Err((answer.number, answer.place as usize))
    };
    demand(got == expected, || format!("demand 2: the writer gives {got:02x?}, the model {expected:02x?}"))?;
    if answer.is_accepted() {
        read_back(call, &answer, &payload[..bytes])?;
    }
    Ok((answer, payload))
}

/// Demand 2: what was written reads back, given room, as that list with true bit counts.
fn read_back(call: &Write, answer: &Answer, payload: &[u8]) -> Result<(), String> {
    let mut events = vec![0xdddd_dddd; call.events.len()];
    let mut texts = vec![0xdd; call.texts.len()];
    let back = reader::read(&call.table, call.party, call.root.0, call.root.1, payload, &mut events, &mut texts);
    demand(back == *answer, || format!("demand 2: written as {answer:?}, read back as {back:?}"))?;
    let same_words =
        events.chunks_exact(4).zip(call.events.chunks_exact(4)).all(|(read, given)| read[..3] == given[..3]);
    demand(same_words && texts == call.texts, || format!("demand 2: the list reads back as {events:?} {texts:02x?}"))?;
    let sum: usize = events.chunks_exact(4).map(|event| event[3] as usize).sum();
    demand(sum + 8 == answer.bits, || "demand 2: the bit counts are not true".to_string())
}

/// Sets or clears a mark: demand 1's shape, the model's answer, and *own*.
pub fn set(tally: &mut Tally, call: &Set) -> Result<(Answer, Vec<u32>), String> {
    let (answer, words) = call.ask();
    tally.met.count("setter", answer.number);
    demand(answer_has_its_shape(&answer) && answer.path.names().is_empty(), || {
        format!("demand 1: the answer's shape: {answer:?}")
    })?;
    let got = if answer.is_accepted() { Ok(words.clone()) } else { Err((answer.number, answer.place as usize)) };
    let expected = model::set_held(&call.table, call.party, call.of_type, call.mark);
    demand(got == expected, || format!("the setter gives {got:?}, the model {expected:?}"))?;
    if answer.is_accepted() {
        own(call, &words)?;
    } else {
        demand(words == call.table, || format!("a refused setting leaves {words:?}"))?;
    }
    Ok((answer, words))
}

/// *Own*: after an accepted setting the mark is as set; every other mark of anybody, and every other word, is as it was.
fn own(call: &Set, words: &[u32]) -> Result<(), String> {
    let (at, bit) = (held_word(call.of_type as usize), 1 << call.party);
    let is_set = held(words, call.party, call.of_type as usize) == (call.mark != 0);
    let mut others = words.to_vec();
    others[at] = (others[at] & !bit) | (call.table[at] & bit);
    demand(is_set && others == call.table, || format!("{call:?} gives {words:?}"))
}

/// The table after these settings, one after the other, each refused or not.
pub fn set_all(tally: &mut Tally, table: &[u32], settings: &[[u32; 3]]) -> Result<Vec<u32>, String> {
    let one = |table, &[party, of_type, mark]: &[u32; 3]| {
        set(tally, &Set { table, party, of_type, mark }).map(|(_, table)| table)
    };
    settings.iter().try_fold(table.to_vec(), one)
}

/// *Others*: with the table as settings by others have left it, a reading and a writing give what they gave.
pub fn others(tally: &mut Tally, after: &[u32], call: &Read, list: &Write) -> Result<(), String> {
    let before = (read(tally, call)?, write(tally, list)?);
    let table = || after.to_vec();
    let then = (
        read(tally, &Read { table: table(), ..call.clone() })?,
        write(tally, &Write { table: table(), ..list.clone() })?,
    );
    tally.others += 1;
    demand(before == then, || format!("settings by others turn {before:02x?} into {then:02x?}"))
}

/// Settings of different marks give the same in both orders.
pub fn commute(tally: &mut Tally, table: &[u32], one: [u32; 3], other: [u32; 3]) -> Result<(), String> {
    let (there, back) = (set_all(tally, table, &[one, other])?, set_all(tally, table, &[other, one])?);
    tally.commuted += 1;
    demand(one[..2] == other[..2] || there == back, || format!("{one:?} and {other:?} do not commute"))
}

/// An element of an accepted list, with where it stands.
struct Span {
    /// Its Start or Blank.
    first: usize,
    /// Its last event.
    last: usize,
    /// Its first bit.
    place: usize,
    /// All its bits.
    bits: usize,
    name: u32,
    /// The effective type.
    of_type: usize,
    /// Whether a length is coded.
    has_length: bool,
    /// The names of the elements around it, outermost first.
    path: Vec<u16>,
    /// Its text bytes: the first, and how many.
    text: (usize, usize),
}

/// The elements of an accepted list, in order of their first events. The types come from walking the table along the
/// list, since a Start does not name its type.
fn spans(words: &[u32], root: (u32, u32), list: &[[u32; 4]]) -> Vec<Span> {
    walked(words, root, list).spans
}

fn walked<'a>(words: &'a [u32], root: (u32, u32), list: &'a [[u32; 4]]) -> SpanWalk<'a> {
    let table = table::Table::new(words).expect("an accepted list has a right table");
    let mut walk = SpanWalk { table, list, next: 0, place: 8, text: 0, path: vec![], spans: vec![], texts: vec![] };
    walk.element(root.0, root.1 as usize);
    walk
}

/// The effective types of the elements of a list that its table has, the root's first.
pub fn element_types(words: &[u32], root: (u32, u32), list: &[[u32; 4]]) -> Vec<usize> {
    spans(words, root, list).iter().map(|span| span.of_type).collect()
}

/// Where the bytes of a list's texts lie in its payload: the first bit, and how many bytes. The list is one that its table has.
pub fn text_places(words: &[u32], root: (u32, u32), list: &[[u32; 4]]) -> Vec<(usize, usize)> {
    walked(words, root, list).texts
}

struct SpanWalk<'a> {
    table: table::Table<'a>,
    list: &'a [[u32; 4]],
    next: usize,
    place: usize,
    text: usize,
    path: Vec<u16>,
    spans: Vec<Span>,
    texts: Vec<(usize, usize)>,
}

impl SpanWalk<'_> {
    fn take(&mut self) -> [u32; 4] {
        let event = self.list[self.next];
        self.next += 1;
        self.place += event[3] as usize;
        event
    }

    fn value(&mut self, of_type: usize) {
        let word = self.take()[1];
        if self.table.type_row(of_type).a == bim::TEXT {
            self.text += word as usize;
            self.texts.push((self.place - 8 * word as usize, word as usize));
        }
    }

    fn element(&mut self, name: u32, of_type: usize) {
        let index = self.spans.len();
        let (first, place, text) = (self.next, self.place, self.text);
        let head = self.take();
        let of_type = match head[0] {
            bim::KIND_BLANK => head[2] as usize,
            _ if self.list[self.next][0] == bim::KIND_CAST => self.take()[1] as usize,
            _ => of_type,
        };
        self.spans.push(Span {
            first,
            last: first,
            place,
            bits: 0,
            name,
            of_type,
            has_length: head[0] == bim::KIND_BLANK || head[2] == 1,
            path: self.path.clone(),
            text: (text, 0),
        });
        if head[0] == bim::KIND_START {
            self.path.push(name as u16);
            let row = self.table.type_row(of_type);
            for attribute in row.first_attribute..row.first_attribute + row.attributes {
                if self.take()[2] == 1 {
                    self.value(self.table.attribute_row(attribute).of_type);
                }
            }
            match row.content {
                bim::EMPTY => {}
                bim::SIMPLE => self.value(of_type),
                _ => self.particle(row.a as usize),
            }
            self.take();
            self.path.pop();
        }
        let span = &mut self.spans[index];
        span.last = self.next - 1;
        span.bits = self.place - place;
        span.text.1 = self.text - text;
    }

    fn particle(&mut self, row: usize) {
        match self.table.particle_row(row) {
            table::Particle::Element { name, of_type } => self.element(name, of_type),
            table::Particle::Sequence { first, number } => {
                (first..first + number).for_each(|child| self.particle(child));
            }
            table::Particle::Choice { first, .. } => {
                let branch = self.take()[1] as usize;
                self.particle(first + branch);
            }
            table::Particle::Occurs { child, .. } => {
                let count = self.take()[1];
                (0..count).for_each(|_| self.particle(child));
            }
        }
    }
}

/// What a pair of readings shows of demand 3.
#[derive(Clone, Copy, Debug, PartialEq, Eq)]
pub enum Pair {
    /// Both accept, and something was newly held.
    Blanked,
    /// The second accepts, the first refuses with 9.
    FirstRefuses,
    /// The first accepts, the second refuses inside a Blank.
    SecondRefuses,
    /// The first accepts, the second lacks room.
    SecondLacksRoom,
    /// Neither accepts, or both give the same.
    Neither,
}

/// How often the pairs of tables showed what.
#[derive(Default)]
pub struct Pairs([u64; 5]);

impl Pairs {
    /// Counts a pair.
    pub fn count(&mut self, pair: Pair) {
        self.0[pair as usize] += 1;
    }

    /// How many there were.
    pub fn all(&self) -> u64 {
        self.0.iter().sum()
    }

    /// Whether every part of the demand was tried; tells where one was not.
    pub fn are_whole(&self) -> bool {
        if self.0.contains(&0) {
            println!("NEVER MET: a part of demand 3");
        }
        !self.0.contains(&0)
    }
}

impl std::fmt::Display for Pairs {
    fn fmt(&self, f: &mut std::fmt::Formatter<'_>) -> std::fmt::Result {
        let [both, first, second, room, neither] = self.0;
        write!(f, "blanked {both}, first refuses 9 {first}, second refuses in a Blank {second}, ")?;
        write!(f, "second lacks room {room}, else {neither}")
    }
}

/// Demand 3, for one party, payload, root and room under two valid tables alike but for held words, where the party holds
/// by the second all that it holds by the first.
pub fn two_tables(tally: &mut Tally, first_table: &[u32], second_call: &Read) -> Result<(), String> {
    let first_call = Read { table: first_table.to_vec(), ..second_call.clone() };
    let first = read(tally, &first_call)?;
    let second = read(tally, second_call)?;
    let pair = judge_pair([first_table, &second_call.table], second_call.party, second_call.root, &first, &second)?;
    tally.pairs.count(pair);
    Ok(())
}

/// Demand 3 of two readings of one payload by one party, whoever made them.
pub fn judge_pair(
    [first_table, second_table]: [&[u32]; 2],
    party: u32,
    root: (u32, u32),
    first: &Outcome,
    second: &Outcome,
) -> Result<Pair, String> {
    let held = |words: &[u32], of_type: usize| held(words, party, of_type);
    match (first.answer.is_accepted(), second.answer.is_accepted()) {
        (_, true) => {
            let all = spans(second_table, root, &second.list());
            let mut outermost: Vec<&Span> = vec![];
            for span in &all {
                let newly = held(second_table, span.of_type) && !held(first_table, span.of_type);
                let inside = outermost.last().is_some_and(|outer| span.first <= outer.last);
                if newly && !inside {
                    outermost.push(span);
                }
            }
            let bare = outermost.iter().find(|span| !span.has_length);
            let expected = match bare {
                Some(span) => {
                    model::Reading::Refused { number: bim::NOT_HELD, place: span.place, path: span.path.clone() }
                }
                None => with_blanks(second, &outermost),
            };
            let got = reading_of(first);
            demand(got == expected, || format!("demand 3: the first gives {got:?}, and should {expected:?}"))?;
            Ok(match (bare.is_some(), outermost.is_empty()) {
                (true, _) => Pair::FirstRefuses,
                (false, false) => Pair::Blanked,
                (false, true) => Pair::Neither,
            })
        }
        (true, false) => {
            let refused = &second.answer;
            let all = spans(first_table, root, &first.list());
            // The refusal lies in a Blank of the first when the second's open path leads into that very element.
            let inside = all.iter().any(|span| {
                let mut open = span.path.clone();
                open.push(span.name as u16);
                let place = refused.place as usize;
                !held(first_table, span.of_type)
                    && refused.path.names().starts_with(&open)
                    && (span.place..=span.place + span.bits).contains(&place)
            });
            if inside {
                return Ok(Pair::SecondRefuses);
            }
            demand([bim::EVENT_ROOM, bim::TEXT_ROOM].contains(&refused.number), || {
                format!("demand 3: the second refuses outside of every Blank: {refused:?}")
            })?;
            Ok(Pair::SecondLacksRoom)
        }
        (false, false) => Ok(Pair::Neither),
    }
}

/// The second's reading with each of these elements replaced by one Blank, and its texts left out.
fn with_blanks(second: &Outcome, elements: &[&Span]) -> model::Reading {
    let list = second.list();
    let mut events = vec![];
    let mut texts = vec![];
    let (mut next, mut text) = (0, 0);
    for span in elements {
        events.extend_from_slice(&list[next..span.first]);
        events.push([bim::KIND_BLANK, span.name, span.of_type as u32, span.bits as u32]);
        next = span.last + 1;
        texts.extend_from_slice(&second.text()[text..span.text.0]);
        text = span.text.0 + span.text.1;
    }
    events.extend_from_slice(&list[next..]);
    texts.extend_from_slice(&second.text()[text..]);
    model::Reading::Accepted { mode: second.answer.mode, events, texts, bits: second.answer.bits }
}

/// A named case gives the answer worked out by hand.
pub fn named(tally: &mut Tally, case: &Case) -> Result<(), String> {
    let answer = match &case.call {
        Call::Table(table) => match check_table(tally, table)? {
            None => Answer::accepted(0, 0, 0, 0),
            Some(word) => Answer::refused(refusal(bim::TABLE, word), Path::empty()),
        },
        Call::Read(call) => read(tally, call)?.answer,
        Call::Write(call) => write(tally, call)?.0,
        Call::Set(call) => set(tally, call)?.0,
    };
    demand(answer == case.answer, || format!("\"{}\" gives {answer:?}, and should {:?}", case.name, case.answer))
}
