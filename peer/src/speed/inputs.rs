//! The calls to be timed: a table, a root, and a list with its payload; or a payload and a list that are refused at their end.

use super::guide::{cast_guide, guide, guide_with_lengths};
use crate::bim;
use crate::call::Write;
use crate::calls::Case;
use crate::cases;
use crate::list::List;
use crate::model::date_words;
use crate::padding::padded;
use crate::rng::Rng;
use crate::rows::{complex, element, occurs, simple, Rows, NOTHING};
use crate::words::big_endian;

/// How many elements of one value a list of 2,048 events has beside what stands around them.
pub const VALUES: u32 = 681;

/// One payload and the list that it is, under a table.
#[derive(Clone)]
pub struct Input {
    /// What it is.
    pub name: String,
    rows: Rows,
    root: (u32, u32),
    mode: u32,
    /// Three words each and a zero; big-endian.
    list: Vec<u8>,
    texts: Vec<u8>,
    payload: Vec<u8>,
}

impl Input {
    /// The input of a list, which must be one that can be written.
    pub fn new(name: &str, rows: Rows, root: (u32, u32), list: List) -> Self {
        Input::written(name, rows, root, list).unwrap_or_else(|number| panic!("{name}: refused {number}"))
    }

    /// The input of a list; the peer writes its payload.
    fn written(name: &str, rows: Rows, root: (u32, u32), list: List) -> Result<Self, u32> {
        let payload = list.payload(&rows.words(), root)?;
        let (mode, events, texts) = (list.mode, big_endian(&list.events.concat()), list.texts);
        Ok(Input { name: name.to_string(), rows, root, mode, list: events, texts, payload })
    }

    /// How many bytes the payload has, and how many events the list.
    pub fn sizes(&self) -> (usize, usize) {
        (self.payload.len(), self.list.len() / bim::EVENT)
    }

    /// The words of the smallest table and of the largest.
    pub fn tables(&self) -> [Vec<u32>; 2] {
        [self.rows.words(), self.rows.largest().words()]
    }

    /// The reading, into buffers of a full receiver's size.
    pub fn reading(&self, table: &[u32]) -> Case {
        Case::read(table, 0, self.root, self.payload.clone(), bim::EVENT * bim::MOST_EVENTS, bim::MOST_PAYLOAD)
    }

    /// The writing, into a buffer of the largest payload.
    pub fn writing(&self, table: &[u32]) -> Case {
        Case::write(table, 0, self.root, self.mode, self.list.clone(), self.texts.clone(), bim::MOST_PAYLOAD)
    }

    /// The same but for the payload's TheLengths, each of which has eight groups.
    fn padded(mut self) -> Self {
        self.name = format!("{}, lengths padded", self.name);
        self.payload = padded(&self.rows.words(), 0, self.root, &self.payload, |_| 8).unwrap_or_default();
        self
    }

    /// The same but for the payload's last bit, which becomes 1, and the list's last event, which becomes no End.
    fn refused(mut self) -> Self {
        self.name = format!("{}, refused at the end", self.name);
        if let Some(last) = self.payload.last_mut() {
            *last |= 1;
        }
        let last = self.list.len() - 5;
        self.list[last] = 1;
        self
    }
}

fn worked() -> Input {
    let Write { table, root, events, texts, .. } = cases::worked_list();
    let mut list = List::new(bim::MODE_ALWAYS, |_| true);
    list.events = events.as_chunks().0.to_vec();
    list.texts.clone_from(texts);
    Input::new("worked example", Rows::of(table), *root, list)
}

/// An empty root: Start and End, and no bit behind the mode byte.
fn empty() -> Input {
    let mut list = List::new(bim::MODE_NEVER, |_| false);
    list.start(10).end();
    let rows = Rows { types: vec![NOTHING], ..Rows::default() };
    Input::new("empty root", rows, (10, 0), list)
}

/// A root with any number of elements of one simple kind.
fn many_of(kind: [u32; 7]) -> Rows {
    Rows {
        types: vec![complex(0, 1, 0), kind, simple(bim::UNSIGNED, 0, 0)],
        attributes: vec![[30, 1, 2]],
        particles: vec![occurs(1, 0, bim::UNBOUNDED), element(31, 1)],
        casts: None,
    }
}

/// So many texts, the last as long as makes the payload `bytes` bytes long; one byte in `accents` begins an accented letter.
fn texts(name: &str, texts: u32, bytes: usize, accents: usize) -> Input {
    let mut rng = Rng::new(3);
    let mut letters = |bytes: usize| {
        let mut text = String::new();
        while text.len() < bytes {
            if accents > 0 && text.len() + 2 <= bytes && rng.one_in(accents) {
                text.push(rng.pick(&['é', 'ø', 'å', 'ß']));
            } else {
                text.push(rng.pick(&['e', 't', 'a', ' ', 'n', 's', 'r', 'i']));
            }
        }
        text
    };
    let each = bytes / texts as usize;
    let list = |letters: &mut dyn FnMut(usize) -> String, last: usize| {
        let mut list = List::new(bim::MODE_NEVER, |_| false);
        list.start(29);
        list.attribute(30, Some(1));
        list.times(texts);
        for text in 0..texts {
            let length = if text + 1 == texts { last } else { each };
            list.text_element(31, &letters(length));
        }
        list.end();
        list
    };
    // The codes around the texts take some bytes: the last text gives way to them.
    let rows = many_of(simple(bim::TEXT, 0, 0));
    for last in (0..=each).rev() {
        match Input::written(name, rows.clone(), (29, 0), list(&mut letters, last)) {
            Ok(input) if input.payload.len() == bytes => return input,
            _ => {}
        }
    }
    panic!("{name}: no last text fits")
}

/// So many elements of one type, whose value `put` puts into the list, and five events around them.
fn elements(name: &str, elements: u32, of_type: [u32; 7], put: fn(&mut Rng, &mut List)) -> Input {
    let mut rng = Rng::new(4);
    let mut list = List::new(bim::MODE_NEVER, |_| false);
    list.start(29);
    list.attribute(30, Some(1));
    list.times(elements);
    for _ in 0..elements {
        list.start(31);
        put(&mut rng, &mut list);
        list.end();
    }
    list.end();
    Input::new(name, many_of(of_type), (29, 0), list)
}

/// So many numbers, each an element of its own.
fn numbers(name: &str, count: u32) -> Input {
    elements(name, count, simple(bim::RANGED, 0, 999), |rng, list| {
        list.value(rng.below(1000) as u32);
    })
}

/// A day of 1968 to 2077.
fn day(rng: &mut Rng) -> u32 {
    rng.within(40_000, 80_000) as u32
}

/// So many days as numbers that are no dates.
fn unsigned(name: &str, count: u32) -> Input {
    elements(name, count, simple(bim::UNSIGNED, 0, 0), |rng, list| {
        list.value(day(rng));
    })
}

/// So many dateTimes of the same days.
fn date_times(name: &str, count: u32) -> Input {
    elements(name, count, simple(bim::DATE_TIME, 0, 0), |rng, list| {
        let days = day(rng);
        list.date(date_words(days.into(), rng.below(bim::DAY_MS as usize) as i64));
    })
}

/// A chain of so many elements, each alone in the one around it, all with a length, and a number in the innermost.
fn chain(name: &str, open: u32) -> Input {
    let mut rows = Rows::default();
    let mut list = List::new(bim::MODE_ALWAYS, |_| true);
    for element_type in 0..open - 1 {
        rows.types.push(complex(0, 0, element_type));
        rows.particles.push(element(50 + element_type + 1, element_type + 1));
        list.start(50 + element_type);
    }
    rows.types.push(simple(bim::UNSIGNED, 0, 0));
    list.simple(50 + open - 1, 123_456);
    for _ in 0..open - 1 {
        list.end();
    }
    Input::new(name, rows, (50, 0), list)
}

/// The inputs of the comparison.
pub fn standard() -> Vec<Input> {
    vec![
        empty(),
        worked(),
        guide(50),
        texts("texts, 8,192 bytes", 9, bim::MOST_PAYLOAD, 40),
        texts("texts in ASCII, 8,192 bytes", 9, bim::MOST_PAYLOAD, 0),
        chain("64 rows open", 64),
        numbers("2,048 events", VALUES),
        guide(50).refused(),
        cast_guide(50),
        chain("64 rows open", 64).padded(),
        unsigned("681 unsigned values", VALUES),
        date_times("681 dateTimes", VALUES),
    ]
}

/// What dates are told apart by: as many elements without a value, of an unsigned value, of a dateTime, of a date.
pub fn of_dates() -> [Input; 4] {
    [
        elements("empty", VALUES, NOTHING, |_, _| {}),
        unsigned("unsigned", VALUES),
        date_times("dateTime", VALUES),
        elements("date", VALUES, simple(bim::DATE, 0, 0), |rng, list| {
            list.date(date_words(day(rng).into(), 0));
        }),
    ]
}

/// A day of guides, of 1 to 50 programmes: what counting into a report is timed on.
pub fn fifty_guides() -> Vec<Input> {
    (1..=50).map(guide).collect()
}

/// The guide that is compared with nanopb's: its smallest table and its payload, as examples/nanopb has them.
pub fn guide_files() -> [(&'static str, Vec<u8>); 2] {
    let input = guide(50);
    [("nanopb/guide.table", big_endian(&input.rows.words())), ("nanopb/guide.bim", input.payload)]
}

/// What the short call is timed on: a list that has every length.
pub fn with_lengths() -> Input {
    guide_with_lengths(50)
}

/// Inputs that grow in one measure.
pub struct Growth {
    /// The measure.
    pub measure: &'static str,
    /// Its sizes, and a case of each.
    pub steps: Vec<(usize, Input, Vec<u32>)>,
}

/// One series for each measure.
pub fn growing() -> Vec<Growth> {
    let own = |size: usize, input: Input| {
        let words = input.rows.words();
        (size, input, words)
    };
    let bytes = [512, 1024, 2048, 4096, 8192];
    let elements = [42, 85, 170, 340, 681];
    let open = [4, 8, 16, 32, 64];
    let table = [(16, 64), (32, 128), (64, 256), (128, 512), (256, 1024)];
    vec![
        Growth {
            measure: "payload bytes, in texts",
            steps: bytes.map(|n| own(n, texts("texts", n as u32 / 256, n, 40))).into(),
        },
        Growth {
            measure: "events",
            steps: elements.map(|n| numbers("numbers", n)).map(|input| own(input.sizes().1, input)).into(),
        },
        Growth { measure: "rows open", steps: open.map(|n| own(n as usize, chain("chain", n))).into() },
        Growth {
            measure: "table words",
            steps: table
                .map(|(types, rows)| {
                    let words = worked().rows.filled(types, rows).words();
                    (words.len(), worked(), words)
                })
                .into(),
        },
    ]
}
