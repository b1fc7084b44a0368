//! The papers once more, bit by bit and without any care for speed: an agenda in place of calls, one bit fetched at a
//! time, lengths from vectors of bits. It judges reader, writer and table check in `demands`, and shares no code with them.

use crate::bim;

// The model counts in 64-bit signed numbers.
const HEADER: i64 = bim::HEADER as i64;
const TYPE_ROW: i64 = bim::TYPE_ROW as i64;
const ATTRIBUTE_ROW: i64 = bim::ATTRIBUTE_ROW as i64;
const PARTICLE_ROW: i64 = bim::PARTICLE_ROW as i64;
const UNBOUNDED: i64 = bim::UNBOUNDED as i64;
const MOST_TIMES: i64 = bim::MOST_TIMES as i64;
const MOST_DERIVATIONS: i64 = bim::MOST_DERIVATIONS as i64;
const MOST_SUBSTITUTES: i64 = bim::MOST_SUBSTITUTES as i64;

/// What the model answers.
#[derive(Clone, Debug, PartialEq, Eq)]
pub enum Reading {
    /// A list with its texts.
    Accepted {
        /// Length coding mode.
        mode: u32,
        /// Events of four words.
        events: Vec<[u32; 4]>,
        /// Text bytes.
        texts: Vec<u8>,
        /// Bits used.
        bits: usize,
    },
    /// A refusal.
    Refused {
        /// Number.
        number: u32,
        /// Place.
        place: usize,
        /// Open names.
        path: Vec<u16>,
    },
}

/// What the model writes: bytes and used bits, or number and place.
pub type Writing = Result<(Vec<u8>, usize), (u32, usize)>;

/// The first word at fault, each word judged by its column.
pub fn check_table(words: &[u32]) -> Option<usize> {
    let given = words.len();
    for (index, &word) in words.iter().enumerate().take(bim::HEADER) {
        let good = match index {
            0 => word == bim::FORM_PLAIN || word == bim::FORM_CASTS,
            1 => word != 0 && word as usize <= bim::MOST_TYPES,
            2 => word as usize <= bim::MOST_ATTRIBUTES,
            _ => word as usize <= bim::MOST_PARTICLES,
        };
        if !good {
            return Some(index);
        }
    }
    if given < bim::HEADER {
        return Some(given);
    }
    let rows = Rows { words };
    let wanted = if words[0] == bim::FORM_PLAIN { rows.counts_from() } else { rows.row_pairs_from() + 2 * rows.p() };
    if given as i64 != wanted || given > bim::MOST_TABLE_WORDS {
        return Some(given);
    }
    (bim::HEADER..given).find(|&index| !rows.word_good(index as i64))
}

/// What the word at `index` of a table is, from the counts of entries on; of a count of derived entries, also why it may be wrong.
pub fn part(words: &[u32], index: usize) -> Option<&'static str> {
    let (rows, index) = (Rows { words }, index as i64);
    if words.len() < bim::HEADER || index < rows.counts_from() || index >= words.len() as i64 {
        return None;
    }
    let odd = |from: i64| (index - from) % 2 == 1;
    Some(match index {
        _ if index == rows.counts_from() => "table: D",
        _ if index == rows.counts_from() + 1 => "table: S",
        _ if index < rows.substitutes_from() => "table: derived entry",
        _ if index < rows.type_pairs_from() && odd(rows.substitutes_from()) => "table: substitute's type",
        _ if index < rows.type_pairs_from() => "table: substitute's name",
        _ if index < rows.row_pairs_from() && odd(rows.type_pairs_from()) => {
            let of_type = (index - rows.type_pairs_from()) / 2;
            if rows.at(index - 1) + rows.at(index) > rows.at(rows.counts_from()) {
                "table: derived past D"
            } else if rows.derived(of_type).contains(&of_type) {
                "table: derived from itself"
            } else {
                "table: derived twice"
            }
        }
        _ if index < rows.row_pairs_from() => "table: first derived",
        _ if rows.of_particle((index - rows.row_pairs_from()) / 2, 0) as u32 != bim::ELEMENT => "table: no element",
        _ if odd(rows.row_pairs_from()) => "table: substitutes past S",
        _ => "table: first substitute",
    })
}

/// A table as bare words, everything in 64-bit signed numbers.
#[derive(Clone, Copy)]
struct Rows<'a> {
    words: &'a [u32],
}

impl Rows<'_> {
    fn at(&self, index: i64) -> i64 {
        i64::from(self.words[index as usize])
    }
    fn t(&self) -> i64 {
        self.at(1)
    }
    fn a(&self) -> i64 {
        self.at(2)
    }
    fn p(&self) -> i64 {
        self.at(3)
    }
    fn attributes_from(&self) -> i64 {
        HEADER + TYPE_ROW * self.t()
    }
    fn particles_from(&self) -> i64 {
        self.attributes_from() + ATTRIBUTE_ROW * self.a()
    }
    /// A word that a table need not have: 0 past its end.
    fn late(&self, index: i64) -> i64 {
        self.words.get(index as usize).map_or(0, |&word| word.into())
    }
    fn counts_from(&self) -> i64 {
        self.particles_from() + PARTICLE_ROW * self.p()
    }
    fn entries_from(&self) -> i64 {
        self.counts_from() + 2
    }
    fn substitutes_from(&self) -> i64 {
        self.entries_from() + self.late(self.counts_from())
    }
    fn type_pairs_from(&self) -> i64 {
        self.substitutes_from() + 2 * self.late(self.counts_from() + 1)
    }
    fn row_pairs_from(&self) -> i64 {
        self.type_pairs_from() + 2 * self.t()
    }
    /// The types derived from a type, in order.
    fn derived(&self, of_type: i64) -> Vec<i64> {
        let pair = self.type_pairs_from() + 2 * of_type;
        let first = self.entries_from() + self.late(pair);
        (first..first + self.late(pair + 1)).map(|entry| self.late(entry)).collect()
    }
    /// The types of a particle row's substitutes, in order.
    fn substitutes(&self, row: i64) -> Vec<i64> {
        let pair = self.row_pairs_from() + 2 * row;
        let first = self.substitutes_from() + 2 * self.late(pair);
        (0..self.late(pair + 1)).map(|index| self.late(first + 2 * index + 1)).collect()
    }
    /// Whether an element of this row has a code at all.
    fn has_codes(&self, row: i64, casting: bool) -> bool {
        !self.substitutes(row).is_empty() || casting && !self.derived(self.of_particle(row, 2)).is_empty()
    }
    /// Whether a party's mark is in the held word, which is a sum of powers of two.
    fn is_held(&self, party: u32, row: i64) -> bool {
        self.of_type(row, 0) / (1 << party) % 2 == 1
    }
    fn of_type(&self, row: i64, column: i64) -> i64 {
        self.at(HEADER + TYPE_ROW * row + column)
    }
    fn of_attribute(&self, row: i64, column: i64) -> i64 {
        self.at(self.attributes_from() + ATTRIBUTE_ROW * row + column)
    }
    fn of_particle(&self, row: i64, column: i64) -> i64 {
        self.at(self.particles_from() + PARTICLE_ROW * row + column)
    }
    fn signed(word: i64) -> i64 {
        i64::from(word as u32 as i32)
    }

    /// Whether the word is right, given that all words before it are.
    fn word_good(&self, index: i64) -> bool {
        let word = self.at(index);
        if index < self.attributes_from() {
            let row = (index - HEADER) / TYPE_ROW;
            let content = self.of_type(row, 1) as u32;
            let simple = self.of_type(row, 4) as u32;
            return match ((index - HEADER) % TYPE_ROW, content) {
                // A mark for each party, and no more.
                (0, _) => word < 1 << bim::PARTIES,
                (1, _) => word <= bim::PARTICLES.into(),
                (2, _) => word <= self.a(),
                (3, _) => self.of_type(row, 2) + word <= self.a(),
                (4, bim::SIMPLE) => word <= bim::DATE.into(),
                (4, bim::PARTICLES) => word < self.p(),
                (5, bim::SIMPLE) if simple == bim::RANGED => true,
                (5, bim::SIMPLE) if simple == bim::ENUMERATION => word > 0 && word <= bim::MOST_VALUES.into(),
                (6, bim::SIMPLE) if simple == bim::RANGED => Self::signed(self.of_type(row, 5)) <= Self::signed(word),
                _ => word == 0,
            };
        }
        if index < self.particles_from() {
            return match (index - self.attributes_from()) % ATTRIBUTE_ROW {
                0 => word <= bim::MOST_NAME.into(),
                1 => word < 2,
                _ => word < self.t() && self.of_type(word, 1) as u32 == bim::SIMPLE && self.of_type(word, 3) == 0,
            };
        }
        let before = self.at(index - 1);
        if index >= self.counts_from() {
            return self.cast_word_good(index, word, before);
        }
        let row = (index - self.particles_from()) / PARTICLE_ROW;
        let children = |least: i64| word >= least && word <= bim::MOST_CHILDREN.into() && before + word <= self.p();
        match ((index - self.particles_from()) % PARTICLE_ROW, self.of_particle(row, 0) as u32) {
            (0, _) => word <= bim::OCCURS.into(),
            (1, bim::ELEMENT) => word <= bim::MOST_NAME.into(),
            (1, _) => row < word && word < self.p(),
            (2, bim::ELEMENT) => word < self.t(),
            (2, bim::SEQUENCE) => children(1),
            (2, bim::CHOICE) => children(2),
            (2, _) => word <= MOST_TIMES,
            (3, bim::OCCURS) => word == UNBOUNDED || word > 0 && word <= MOST_TIMES && word >= before,
            _ => word == 0,
        }
    }
}

impl Rows<'_> {
    /// Whether a word behind the rows is right.
    fn cast_word_good(&self, index: i64, word: i64, before: i64) -> bool {
        let (d, s) = (self.at(self.counts_from()), self.at(self.counts_from() + 1));
        if index < self.entries_from() {
            return word <= if index == self.counts_from() { MOST_DERIVATIONS } else { MOST_SUBSTITUTES };
        }
        if index < self.substitutes_from() {
            return word < self.t();
        }
        if index < self.type_pairs_from() {
            let is_name = (index - self.substitutes_from()) % 2 == 0;
            return if is_name { word <= bim::MOST_NAME.into() } else { word < self.t() };
        }
        if index < self.row_pairs_from() {
            let of_type = (index - self.type_pairs_from()) / 2;
            if (index - self.type_pairs_from()) % 2 == 0 {
                return word <= d;
            }
            if before + word > d {
                return false;
            }
            let mut all = self.derived(of_type);
            all.push(of_type);
            return (0..all.len()).all(|at| !all[..at].contains(&all[at]));
        }
        let row = (index - self.row_pairs_from()) / 2;
        if self.of_particle(row, 0) as u32 != bim::ELEMENT {
            return word == 0;
        }
        let is_first = (index - self.row_pairs_from()) % 2 == 0;
        word + if is_first { 0 } else { before } <= s
    }
}

/// What is still to be read or written, the next on top.
enum Task {
    Element {
        /// The particle row; the root has none.
        row: Option<i64>,
        name: i64,
        of_type: i64,
        wall: usize,
        depth: usize,
    },
    Attribute {
        row: i64,
        wall: usize,
    },
    Value {
        of_type: i64,
        wall: usize,
    },
    Particle {
        row: i64,
        wall: usize,
        depth: usize,
    },
    Again {
        row: i64,
        left: i64,
        wall: usize,
        depth: usize,
    },
    /// The body's first bit and declared end, where one is.
    Close {
        declared: Option<(usize, usize)>,
    },
}

/// The tasks of a held element's body, first attribute on top.
fn push_body(rows: &Rows<'_>, agenda: &mut Vec<Task>, of_type: i64, wall: usize, depth: usize) {
    match rows.of_type(of_type, 1) as u32 {
        bim::EMPTY => {}
        bim::SIMPLE => agenda.push(Task::Value { of_type, wall }),
        _ => agenda.push(Task::Particle { row: rows.of_type(of_type, 4), wall, depth: depth + 1 }),
    }
    let first = rows.of_type(of_type, 2);
    for row in (first..first + rows.of_type(of_type, 3)).rev() {
        agenda.push(Task::Attribute { row, wall });
    }
}

/// The least width for `choices`, by doubling.
pub fn width(choices: i64) -> usize {
    let mut width = 0;
    while (1_i64 << width) < choices {
        width += 1;
    }
    width
}

/// Bits taken one at a time.
pub struct Fetch<'a> {
    payload: &'a [u8],
    /// The next bit.
    pub at: usize,
    wall: usize,
}

impl<'a> Fetch<'a> {
    /// Begins at `at`, below `wall`.
    pub fn new(payload: &'a [u8], wall: usize, at: usize) -> Self {
        Fetch { payload, at, wall }
    }

    fn bit(&mut self) -> Result<i64, u32> {
        if self.at >= self.wall {
            return Err(bim::PAST_END);
        }
        let bit = self.payload[self.at / 8] >> (7 - self.at % 8) & 1;
        self.at += 1;
        Ok(i64::from(bit))
    }

    /// A number in `width` bits.
    pub fn fixed(&mut self, width: usize) -> Result<i64, u32> {
        let mut value = 0;
        for _ in 0..width {
            value = 2 * value + self.bit()?;
        }
        Ok(value)
    }

    /// vluimsbf5, with whether it was shortest.
    pub fn loose5(&mut self) -> Result<(i64, bool), u32> {
        let mut groups = 1;
        while self.bit()? == 1 {
            groups += 1;
            if groups == 9 {
                return Err(bim::TOO_LARGE);
            }
        }
        let value = self.fixed(4 * groups)?;
        Ok((value, groups == 1 || value >= 1 << (4 * (groups - 1))))
    }

    /// vluimsbf8, with whether it was shortest.
    pub fn loose8(&mut self) -> Result<(i64, bool), u32> {
        let first = self.fixed(8)?;
        if first < 128 {
            return Ok((first, true));
        }
        let second = self.fixed(8)?;
        if second > 127 {
            return Err(bim::TOO_LARGE);
        }
        let value = (first - 128) * 128 + second;
        Ok((value, value > 127))
    }

    /// vluimsbf5 in shortest form and at most `most`.
    pub fn upto(&mut self, most: i64) -> Result<i64, u32> {
        let (value, shortest) = self.loose5()?;
        if !shortest {
            return Err(bim::NOT_SHORTEST);
        }
        if value > most {
            return Err(bim::TOO_LARGE);
        }
        Ok(value)
    }

    fn below(&mut self, choices: i64) -> Result<i64, u32> {
        let value = self.fixed(width(choices))?;
        if value >= choices {
            return Err(bim::NO_SUCH_CODE);
        }
        Ok(value)
    }

    /// A flag where there is something to choose from; where it is 1, the type that is chosen and its number from 1. `item` is
    /// then whichever was looked at.
    fn one_of(
        &mut self,
        types: &[i64],
        items: [&'static str; 2],
        item: &mut &'static str,
    ) -> Result<Option<(i64, i64)>, u32> {
        *item = items[0];
        if types.is_empty() || self.bit()? == 0 {
            return Ok(None);
        }
        *item = items[1];
        let number = self.below(types.len() as i64)?;
        Ok(Some((types[number as usize], number + 1)))
    }

    /// The count of an occurs row, by the cases of 001, 8.5.2.2.5.2.
    pub fn count(&mut self, least: i64, most: i64) -> Result<i64, u32> {
        if least == 0 && most == 1 {
            return self.fixed(1);
        }
        if least == 0 {
            if self.fixed(1)? == 0 {
                return Ok(0);
            }
            let count = if most == UNBOUNDED { self.upto(MOST_TIMES)? } else { self.below(most + 1)? };
            return if count == 0 { Err(bim::NO_SUCH_CODE) } else { Ok(count) };
        }
        if most == UNBOUNDED {
            return Ok(least + self.upto(MOST_TIMES - least)?);
        }
        Ok(least + self.below(most - least + 1)?)
    }

    /// A simple value's two words and its text.
    pub fn value(&mut self, kind: i64, b: i64, c: i64) -> Result<([u32; 2], Vec<u8>), u32> {
        let word = match kind as u32 {
            bim::BOOLEAN => self.fixed(1)?,
            bim::RANGED => {
                let (b, c) = (Rows::signed(b), Rows::signed(c));
                if c - b <= bim::MOST_FIXED.into() {
                    b + self.below(c - b + 1)?
                } else {
                    b + self.upto(c - b)?
                }
            }
            bim::UNSIGNED => self.upto(u32::MAX.into())?,
            bim::SIGNED => {
                let sign = self.fixed(1)?;
                let magnitude = self.upto((1 << 31) - 1 + sign)?;
                if sign == 1 && magnitude == 0 {
                    return Err(bim::MINUS_ZERO);
                }
                if sign == 1 {
                    -magnitude
                } else {
                    magnitude
                }
            }
            bim::ENUMERATION => self.below(b)?,
            bim::FLOAT => self.fixed(32)?,
            bim::DATE_TIME => {
                let (days, ms) = (self.fixed(32)?, self.fixed(32)?);
                return if ms < DAY { Ok((date_words(days, ms), vec![])) } else { Err(bim::NO_SUCH_CODE) };
            }
            bim::DATE => return Ok((date_words(self.fixed(32)?, 0), vec![])),
            _ => {
                let count = self.upto(bim::MOST_TEXT.into())?;
                let mut text = vec![];
                for _ in 0..count {
                    text.push(self.fixed(8)? as u8);
                }
                text_fault(&text)?;
                return Ok(([count as u32, 0], text));
            }
        };
        Ok(([word as u32, 0], vec![]))
    }
}

/// The milliseconds of a day.
const DAY: i64 = 24 * 60 * 60 * 1000;

/// Days from 0000-01-01 to the first of a year: 365 for each year before it, and one for each leap year among them.
fn days_before(year: i64) -> i64 {
    let multiples_of = |number: i64| (year + number - 1) / number;
    365 * year + multiples_of(4) - multiples_of(100) + multiples_of(400)
}

/// How long the months of a year are: February has what the others leave.
fn months(year: i64) -> [i64; 12] {
    let days = days_before(year + 1) - days_before(year);
    [31, days - 337, 31, 30, 31, 30, 31, 31, 30, 31, 30, 31]
}

/// Days from 0000-01-01 to a date, where there is such a date.
fn days_to(year: i64, month: i64, day: i64) -> Option<i64> {
    let months = months(year);
    let (length, before) =
        (1..=12).contains(&month).then(|| (months[month as usize - 1], &months[..month as usize - 1]))?;
    (1..=length).contains(&day).then(|| days_before(year) + before.iter().sum::<i64>() + day - 1)
}

/// Of day 0.
fn origin() -> i64 {
    days_to(1858, 11, 17).expect("the first day is a date")
}

/// The two words of a dateTime, its year found by halving.
pub fn date_words(days: i64, ms: i64) -> [u32; 2] {
    let mut left = origin() + days;
    let (mut year, mut over) = (1858, 1 << 28);
    while over - year > 1 {
        let middle = (year + over) / 2;
        if days_before(middle) <= left {
            year = middle;
        } else {
            over = middle;
        }
    }
    left -= days_before(year);
    let mut month = 0;
    for length in months(year) {
        month += 1;
        if left < length {
            break;
        }
        left -= length;
    }
    [(16 * year + month) as u32, (134_217_728 * (left + 1) + ms) as u32]
}

/// Days since day 0 and milliseconds, of two words that are a date among the 2^32 and a time of day.
pub fn date_of_words(word: u32, second: u32) -> Option<(u64, u64)> {
    let (word, second) = (i64::from(word), i64::from(second));
    let days = days_to(word / 16, word % 16, second / 134_217_728)? - origin();
    let ms = second % 134_217_728;
    ((0..1 << 32).contains(&days) && ms < DAY).then_some((days as u64, ms as u64))
}

/// 16 for bytes that are no characters, 25 for characters that XML 1.0 has not, of those below a space.
pub fn text_fault(text: &[u8]) -> Result<(), u32> {
    let characters = std::str::from_utf8(text).map_err(|_| bim::NOT_UTF8)?.chars();
    match characters.filter(|&character| character < ' ').all(|below| "\t\n\r".contains(below)) {
        true => Ok(()),
        false => Err(bim::CONTROL),
    }
}

/// The table with a party's mark of a type as told; or number and place.
pub fn set_held(table: &[u32], party: u32, of_type: u32, mark: u32) -> Result<Vec<u32>, (u32, usize)> {
    if let Some(word) = check_table(table) {
        return Err((bim::TABLE, word));
    }
    let rows = Rows { words: table };
    if i64::from(of_type) >= rows.t() {
        return Err((bim::ROOT, 0));
    }
    if party >= bim::PARTIES {
        return Err((bim::PARTY, 0));
    }
    let mut words = table.to_vec();
    let at = (HEADER + TYPE_ROW * i64::from(of_type)) as usize;
    match (rows.is_held(party, of_type.into()), mark != 0) {
        (false, true) => words[at] += 1 << party,
        (true, false) => words[at] -= 1 << party,
        _ => {}
    }
    Ok(words)
}

/// Reads, with room for `event_room` events and `text_room` text bytes.
pub fn read(
    table: &[u32],
    party: u32,
    root_name: u32,
    root_type: u32,
    payload: &[u8],
    event_room: usize,
    text_room: usize,
) -> Told {
    let refused = |number, place| Told::early(Reading::Refused { number, place, path: vec![] });
    if let Some(word) = check_table(table) {
        return refused(bim::TABLE, word);
    }
    let rows = Rows { words: table };
    if i64::from(root_type) >= rows.t() || root_name > bim::MOST_NAME {
        return refused(bim::ROOT, 0);
    }
    if party >= bim::PARTIES {
        return refused(bim::PARTY, 0);
    }
    if payload.is_empty() || payload.len() > bim::MOST_PAYLOAD {
        return refused(bim::PAYLOAD_SIZE, 0);
    }
    let Some(&(mode, _)) = bim::MODES.iter().find(|(_, byte)| *byte == payload[0]) else {
        return refused(bim::MODE_BYTE, 0);
    };
    if mode >= bim::CASTING && rows.late(rows.counts_from()) == 0 {
        return Told { item: "casting, no derivations", ..refused(bim::MODE_BYTE, 0) };
    }
    let mut agenda = Agenda {
        rows,
        party,
        lengths: mode & 3,
        casting: mode & 4 != 0,
        item: "",
        unseen: vec![],
        tasks: vec![Task::Element {
            row: None,
            name: root_name.into(),
            of_type: root_type.into(),
            wall: 8 * payload.len(),
            depth: 1,
        }],
        event_room: event_room.min(bim::MOST_EVENTS),
        text_room,
        at: 8,
        events: vec![],
        texts: vec![],
        path: vec![],
    };
    while let Some(task) = agenda.tasks.pop() {
        let (number, place) = match agenda.step(task, payload) {
            Ok(()) => continue,
            Err(Fault::Here(number)) => (number, agenda.at),
            Err(Fault::At(number, place)) => (number, place),
        };
        return Told {
            reading: Reading::Refused { number, place, path: agenda.path },
            item: agenda.item,
            unseen: agenda.unseen,
        };
    }
    let left: Vec<_> = (agenda.at..8 * payload.len()).map(|at| payload[at / 8] >> (7 - at % 8) & 1).collect();
    if left.len() > 7 || left.contains(&1) {
        return refused(bim::LEFT_OVER, agenda.at);
    }
    let reading = Reading::Accepted { mode, events: agenda.events, texts: agenda.texts, bits: agenda.at };
    Told { reading, item: "", unseen: agenda.unseen }
}

/// A reading, and what else is to be told of it.
pub struct Told {
    /// The answer.
    pub reading: Reading,
    /// The item that was refused, of those that have to do with substitution, casting and dates.
    pub item: &'static str,
    /// The bits that no reading looks at: from a Blank's codes to its end.
    pub unseen: Vec<std::ops::Range<usize>>,
}

impl Told {
    /// Before the first item.
    fn early(reading: Reading) -> Self {
        Told { reading, item: "", unseen: vec![] }
    }
}

/// A refusal at the item's own first bit, or elsewhere.
enum Fault {
    Here(u32),
    At(u32, usize),
}

impl From<u32> for Fault {
    fn from(number: u32) -> Self {
        Fault::Here(number)
    }
}

struct Agenda<'a> {
    rows: Rows<'a>,
    party: u32,
    lengths: u32,
    casting: bool,
    /// What is looked at, where it has to do with codes.
    item: &'static str,
    unseen: Vec<std::ops::Range<usize>>,
    tasks: Vec<Task>,
    event_room: usize,
    text_room: usize,
    /// The first bit of the item at hand; it moves only when the item's event is stored.
    at: usize,
    events: Vec<[u32; 4]>,
    texts: Vec<u8>,
    path: Vec<u16>,
}

impl Agenda<'_> {
    fn store(&mut self, kind: u32, p: i64, q: i64, next: usize) -> Result<(), Fault> {
        if self.events.len() >= self.event_room {
            return Err(Fault::Here(bim::EVENT_ROOM));
        }
        self.events.push([kind, p as u32, q as u32, (next - self.at) as u32]);
        self.at = next;
        Ok(())
    }

    fn step(&mut self, task: Task, payload: &[u8]) -> Result<(), Fault> {
        let rows = self.rows;
        match task {
            Task::Element { row, name, of_type, wall, depth } => {
                if depth > bim::MOST_OPEN {
                    return Err(Fault::Here(bim::DEPTH));
                }
                let mut fetch = Fetch::new(payload, wall, self.at);
                let coded = match self.lengths {
                    bim::MODE_NEVER => false,
                    bim::MODE_OPTIONAL => fetch.fixed(1)? == 1,
                    _ => true,
                };
                let length = if coded { Some(fetch.loose5()?.0 as usize) } else { None };
                let body = fetch.at;
                if length.is_some_and(|length| body + length > wall) {
                    return Err(Fault::Here(bim::LENGTH));
                }
                let declared = length.map(|length| (body, body + length));
                let wall = declared.map_or(wall, |(_, end)| end);
                let (own, mut number) = (of_type, 0);
                let mut of_type = of_type;
                let mut fetch = Fetch::new(payload, wall, body);
                if let Some(row) = row.filter(|&row| rows.has_codes(row, self.casting)) {
                    let at_codes = |number| Fault::At(number, body);
                    let items = ["substitution flag", "substitution code"];
                    let substitutes = rows.substitutes(row);
                    if let Some(chosen) = fetch.one_of(&substitutes, items, &mut self.item).map_err(at_codes)? {
                        (of_type, number) = chosen;
                    }
                    let derived = if self.casting { rows.derived(of_type) } else { vec![] };
                    let items = ["cast flag", "cast code"];
                    if let Some((cast, _)) = fetch.one_of(&derived, items, &mut self.item).map_err(at_codes)? {
                        of_type = cast;
                    }
                    self.item = if of_type == own { "element with codes" } else { "element of another type" };
                }
                let codes_end = fetch.at;
                if !rows.is_held(self.party, of_type) {
                    let (_, end) = declared.ok_or(bim::NOT_HELD)?;
                    self.unseen.push(codes_end..end);
                    self.store(bim::KIND_BLANK, name, of_type, end)?;
                    self.item = "";
                    return Ok(());
                }
                self.store(bim::KIND_START, name, coded.into(), body)?;
                self.path.push(name as u16);
                if codes_end > body {
                    self.item = "cast event";
                    self.store(bim::KIND_CAST, of_type, number, codes_end)?;
                }
                self.item = "";
                self.tasks.push(Task::Close { declared });
                push_body(&rows, &mut self.tasks, of_type, wall, depth);
            }
            Task::Attribute { row, wall } => {
                let mut fetch = Fetch::new(payload, wall, self.at);
                let present = rows.of_attribute(row, 1) == 1 || fetch.fixed(1)? == 1;
                self.store(bim::KIND_ATTRIBUTE, rows.of_attribute(row, 0), present.into(), fetch.at)?;
                if present {
                    let of_type = rows.of_attribute(row, 2);
                    self.tasks.push(Task::Value { of_type, wall });
                }
            }
            Task::Value { of_type, wall } => {
                let mut fetch = Fetch::new(payload, wall, self.at);
                let kind = rows.of_type(of_type, 4);
                self.item = date_item(kind, ["dateTime", "date"]);
                let ([word, second], text) = fetch.value(kind, rows.of_type(of_type, 5), rows.of_type(of_type, 6))?;
                if self.texts.len() + text.len() > self.text_room {
                    return Err(Fault::Here(bim::TEXT_ROOM));
                }
                self.store(bim::KIND_VALUE, word.into(), second.into(), fetch.at)?;
                self.item = "";
                self.texts.extend(text);
            }
            Task::Particle { row, wall, depth } => {
                let word = |column| rows.of_particle(row, column);
                let mut fetch = Fetch::new(payload, wall, self.at);
                if word(0) as u32 == bim::ELEMENT {
                    self.tasks.push(Task::Element { row: Some(row), name: word(1), of_type: word(2), wall, depth });
                    return Ok(());
                }
                if depth > bim::MOST_OPEN {
                    return Err(Fault::Here(bim::DEPTH));
                }
                let child = |row| Task::Particle { row, wall, depth: depth + 1 };
                match word(0) as u32 {
                    bim::SEQUENCE => self.tasks.extend((word(1)..word(1) + word(2)).rev().map(child)),
                    bim::CHOICE => {
                        let branch = fetch.below(word(2))?;
                        self.store(bim::KIND_PICK, branch, 0, fetch.at)?;
                        self.tasks.push(child(word(1) + branch));
                    }
                    _ => {
                        let count = fetch.count(word(2), word(3))?;
                        self.store(bim::KIND_TIMES, count, 0, fetch.at)?;
                        self.tasks.push(Task::Again { row: word(1), left: count, wall, depth: depth + 1 });
                    }
                }
            }
            Task::Again { row, left, wall, depth } => {
                if left > 0 {
                    self.tasks.push(Task::Again { row, left: left - 1, wall, depth });
                    self.tasks.push(Task::Particle { row, wall, depth });
                }
            }
            Task::Close { declared } => {
                if let Some((body, end)) = declared {
                    if self.at < end {
                        return Err(Fault::At(bim::CONTENT_SHORT, body));
                    }
                }
                self.store(bim::KIND_END, 0, 0, self.at)?;
                self.path.pop();
            }
        }
        Ok(())
    }
}

/// Which of two items a value of this kind is: of a dateTime, of a date, or neither.
fn date_item(kind: i64, [date_time, date]: [&'static str; 2]) -> &'static str {
    match kind as u32 {
        bim::DATE_TIME => date_time,
        bim::DATE => date,
        _ => "",
    }
}

/// The low `width` bits of `value`.
pub fn bits_of(value: u64, width: usize) -> Vec<bool> {
    (0..width).rev().map(|bit| value >> bit & 1 == 1).collect()
}

/// vluimsbf5 in `groups` groups.
pub fn bits5(value: u64, groups: usize) -> Vec<bool> {
    let mut bits = vec![true; groups - 1];
    bits.push(false);
    bits.extend(bits_of(value, 4 * groups));
    bits
}

/// The fewest groups that hold `value`.
pub fn groups(value: u64) -> usize {
    (1..16).find(|&groups| value < 1 << (4 * groups)).unwrap_or(16)
}

/// Bytes of bits, zeros at the end.
pub fn bytes_of(bits: &[bool]) -> Vec<u8> {
    bits.chunks(8)
        .map(|chunk| {
            let byte = chunk.iter().fold(0, |byte, &bit| byte << 1 | u8::from(bit));
            byte << (8 - chunk.len())
        })
        .collect()
}

/// A simple value's bits without a text's bytes, where its row has the value. The second word counts of dates alone.
pub fn value_bits(kind: i64, b: i64, c: i64, [word, second]: [u32; 2]) -> Option<Vec<bool>> {
    let shortest = |value: u64| bits5(value, groups(value));
    let among = |choices: i64, index: i64| (0..choices).contains(&index).then(|| bits_of(index as u64, width(choices)));
    let signed = i64::from(word as i32);
    match kind as u32 {
        bim::BOOLEAN => among(2, word.into()),
        bim::RANGED => {
            let (b, c) = (Rows::signed(b), Rows::signed(c));
            if c - b <= bim::MOST_FIXED.into() {
                return among(c - b + 1, signed - b);
            }
            (b..=c).contains(&signed).then(|| shortest((signed - b) as u64))
        }
        bim::UNSIGNED => Some(shortest(word.into())),
        bim::SIGNED => {
            let mut bits = vec![signed < 0];
            bits.extend(shortest(signed.unsigned_abs()));
            Some(bits)
        }
        bim::ENUMERATION => among(b, word.into()),
        bim::TEXT => (word <= bim::MOST_TEXT).then(|| shortest(word.into())),
        bim::DATE_TIME => date_of_words(word, second).map(|(days, ms)| bits_of(days << 32 | ms, 64)),
        bim::DATE => match date_of_words(word, second)? {
            (days, 0) => Some(bits_of(days, 32)),
            _ => None,
        },
        _ => Some(bits_of(word.into(), 32)),
    }
}

/// An occurs count's bits, where its row has the count.
pub fn count_bits(least: i64, most: i64, count: u32) -> Option<Vec<bool>> {
    let count = i64::from(count);
    if count < least || count > most || count > MOST_TIMES {
        return None;
    }
    let mut bits = vec![];
    if least == 0 && most > 1 {
        bits.push(count > 0);
        if count == 0 {
            return Some(bits);
        }
    }
    let above = (count - least) as u64;
    bits.extend(if most == UNBOUNDED { bits5(above, groups(above)) } else { bits_of(above, width(most - least + 1)) });
    Some(bits)
}

/// Writes into `room` bytes. Besides, the item that was refused, of those that have to do with substitution, casting and dates.
#[allow(clippy::too_many_arguments)] // what a call is given, in its order
pub fn write(
    table: &[u32],
    party: u32,
    root_name: u32,
    root_type: u32,
    mode: u32,
    events: &[u32],
    texts: &[u8],
    room: usize,
) -> (Writing, &'static str) {
    if let Some(word) = check_table(table) {
        return (Err((bim::TABLE, word)), "");
    }
    let rows = Rows { words: table };
    if i64::from(root_type) >= rows.t() || root_name > bim::MOST_NAME {
        return (Err((bim::ROOT, 0)), "");
    }
    if party >= bim::PARTIES {
        return (Err((bim::PARTY, 0)), "");
    }
    let Some(&(_, byte)) = bim::MODES.iter().find(|(number, _)| *number == mode) else {
        return (Err((bim::WRITE_MODE, 0)), if mode == 3 { "mode 3" } else { "mode over 6" });
    };
    if mode >= bim::CASTING && rows.late(rows.counts_from()) == 0 {
        return (Err((bim::WRITE_MODE, 0)), "casting, no derivations");
    }
    let count = events.len() / 4;
    if !events.len().is_multiple_of(4) || count > bim::MOST_EVENTS {
        return (Err((bim::NO_READING, count)), "");
    }
    let root = Task::Element { row: None, name: root_name.into(), of_type: root_type.into(), wall: 0, depth: 1 };
    let mut walk = Walk {
        rows,
        party,
        lengths: mode & 3,
        casting: mode & 4 != 0,
        item: "",
        events,
        next: 0,
        left: texts,
        tasks: vec![root],
        bodies: vec![(None, bits_of(byte.into(), 8))],
    };
    while let Some(task) = walk.tasks.pop() {
        if let Err(number) = walk.step(task) {
            let found = events.get(4 * walk.next).copied();
            let item = if walk.item.is_empty() && found == Some(bim::KIND_CAST) { "stray cast" } else { walk.item };
            return (Err((number, walk.next)), item);
        }
    }
    if walk.next < count {
        let number = if events[4 * walk.next] == bim::KIND_BLANK { bim::BLANK } else { bim::NO_READING };
        return (Err((number, walk.next)), "");
    }
    if !walk.left.is_empty() {
        return (Err((bim::TEXT_BYTES, count)), "");
    }
    let bits = &walk.bodies[0].1;
    let bytes = bytes_of(bits);
    if bytes.len() > bim::MOST_PAYLOAD || bytes.len() > room {
        return (Err((bim::PAYLOAD_ROOM, 0)), "");
    }
    (Ok((bytes, bits.len())), "")
}

struct Walk<'a> {
    rows: Rows<'a>,
    party: u32,
    lengths: u32,
    casting: bool,
    /// What is looked at, where it has to do with codes.
    item: &'static str,
    events: &'a [u32],
    next: usize,
    left: &'a [u8],
    tasks: Vec<Task>,
    /// The bodies of the open elements, each with its Start's second word; the payload itself lies lowest.
    bodies: Vec<(Option<u32>, Vec<bool>)>,
}

impl Walk<'_> {
    /// The event wanted next; 18 where there is none.
    fn peek(&self) -> Result<[u32; 3], u32> {
        let at = 4 * self.next;
        if at >= self.events.len() {
            return Err(bim::NO_READING);
        }
        Ok([self.events[at], self.events[at + 1], self.events[at + 2]])
    }

    /// The event's p and q, once its kind is right.
    fn want(&self, kind: u32) -> Result<(u32, u32), u32> {
        match self.peek()? {
            [bim::KIND_BLANK, _, _] => Err(bim::BLANK),
            [found, p, q] if found == kind => Ok((p, q)),
            _ => Err(bim::NO_READING),
        }
    }

    fn put(&mut self, bits: Vec<bool>) {
        if let Some((_, body)) = self.bodies.last_mut() {
            body.extend(bits);
        }
    }

    /// The event of both codes, of a row that has any: gives the effective type.
    fn cast(&mut self, row: i64, own: i64) -> Result<i64, u32> {
        self.item = "no event for the codes";
        self.peek()?;
        self.item = "no cast";
        let (p, q) = self.want(bim::KIND_CAST)?;
        let (p, q) = (i64::from(p), i64::from(q));
        let types = self.rows.substitutes(row);
        self.item = "substitute";
        if q > types.len() as i64 {
            return Err(bim::OUTSIDE_ROW);
        }
        let default = if q == 0 { own } else { types[q as usize - 1] };
        let derived = if self.casting { self.rows.derived(default) } else { vec![] };
        self.item = "effective type";
        if p != default && !derived.contains(&p) {
            return Err(bim::OUTSIDE_ROW);
        }
        let mut bits = vec![];
        // 0 is none, and takes no more than the flag.
        for (choices, number) in
            [(types.len(), q), (derived.len(), derived.iter().position(|&one| one == p).map_or(0, |at| at as i64 + 1))]
        {
            if choices > 0 {
                bits.push(number > 0);
            }
            if number > 0 {
                bits.extend(bits_of(number as u64 - 1, width(choices as i64)));
            }
        }
        self.put(bits);
        self.next += 1;
        self.item = if p == own { "written element with codes" } else { "written element of another type" };
        Ok(p)
    }

    fn step(&mut self, task: Task) -> Result<(), u32> {
        let rows = self.rows;
        match task {
            Task::Element { row, name, of_type, wall, depth } => {
                self.peek()?;
                if depth > bim::MOST_OPEN {
                    return Err(bim::DEPTH);
                }
                let (p, q) = self.want(bim::KIND_START)?;
                let flags: &[u32] = [&[0][..], &[0, 1], &[1]][self.lengths as usize];
                if i64::from(p) != name || !flags.contains(&q) {
                    return Err(bim::NO_READING);
                }
                self.next += 1;
                self.bodies.push((Some(q), vec![]));
                let (mut of_type, start) = (of_type, self.next - 1);
                if let Some(row) = row.filter(|&row| rows.has_codes(row, self.casting)) {
                    of_type = self.cast(row, of_type)?;
                }
                if !rows.is_held(self.party, of_type) {
                    self.next = start;
                    return Err(bim::NOT_HELD);
                }
                self.item = "";
                self.tasks.push(Task::Close { declared: None });
                push_body(&rows, &mut self.tasks, of_type, wall, depth);
            }
            Task::Attribute { row, wall } => {
                let (p, q) = self.want(bim::KIND_ATTRIBUTE)?;
                let required = rows.of_attribute(row, 1) == 1;
                if i64::from(p) != rows.of_attribute(row, 0) || q > 1 || (required && q == 0) {
                    return Err(bim::NO_READING);
                }
                self.next += 1;
                if !required {
                    self.put(vec![q == 1]);
                }
                if q == 1 {
                    let of_type = rows.of_attribute(row, 2);
                    self.tasks.push(Task::Value { of_type, wall });
                }
            }
            Task::Value { of_type, .. } => {
                let (word, q) = self.want(bim::KIND_VALUE)?;
                let column = |column| rows.of_type(of_type, column);
                self.item = date_item(column(4), ["written dateTime", "written date"]);
                if q != 0 && self.item.is_empty() {
                    self.item = "second word of no date";
                    return Err(bim::NO_READING);
                }
                let bits = value_bits(column(4), column(5), column(6), [word, q]).ok_or(bim::OUTSIDE_ROW)?;
                self.item = "";
                let size = if column(4) as u32 == bim::TEXT { word as usize } else { 0 };
                if size > self.left.len() {
                    return Err(bim::TEXT_BYTES);
                }
                let (text, left) = self.left.split_at(size);
                text_fault(text)?;
                self.left = left;
                self.next += 1;
                self.put(bits);
                for &byte in text {
                    self.put(bits_of(byte.into(), 8));
                }
            }
            Task::Particle { row, wall, depth } => {
                let word = |column| rows.of_particle(row, column);
                if word(0) as u32 == bim::ELEMENT {
                    self.tasks.push(Task::Element { row: Some(row), name: word(1), of_type: word(2), wall, depth });
                    return Ok(());
                }
                self.peek()?;
                if depth > bim::MOST_OPEN {
                    return Err(bim::DEPTH);
                }
                let child = |row| Task::Particle { row, wall, depth: depth + 1 };
                match word(0) as u32 {
                    bim::SEQUENCE => self.tasks.extend((word(1)..word(1) + word(2)).rev().map(child)),
                    bim::CHOICE => {
                        let (branch, q) = self.want(bim::KIND_PICK)?;
                        if q != 0 {
                            return Err(bim::NO_READING);
                        }
                        if i64::from(branch) >= word(2) {
                            return Err(bim::OUTSIDE_ROW);
                        }
                        self.next += 1;
                        self.put(bits_of(branch.into(), width(word(2))));
                        self.tasks.push(child(word(1) + i64::from(branch)));
                    }
                    _ => {
                        let (count, q) = self.want(bim::KIND_TIMES)?;
                        if q != 0 {
                            return Err(bim::NO_READING);
                        }
                        let bits = count_bits(word(2), word(3), count).ok_or(bim::OUTSIDE_ROW)?;
                        self.next += 1;
                        self.put(bits);
                        self.tasks.push(Task::Again { row: word(1), left: count.into(), wall, depth: depth + 1 });
                    }
                }
            }
            Task::Again { row, left, wall, depth } => {
                if left > 0 {
                    self.tasks.push(Task::Again { row, left: left - 1, wall, depth });
                    self.tasks.push(Task::Particle { row, wall, depth });
                }
            }
            Task::Close { .. } => {
                if self.want(bim::KIND_END)? != (0, 0) {
                    return Err(bim::NO_READING);
                }
                self.next += 1;
                if let Some((Some(coded), body)) = self.bodies.pop() {
                    if self.lengths == bim::MODE_OPTIONAL {
                        self.put(vec![coded == 1]);
                    }
                    if coded == 1 {
                        let length = body.len() as u64;
                        self.put(bits5(length, groups(length)));
                    }
                    self.put(body);
                }
            }
        }
        Ok(())
    }
}
