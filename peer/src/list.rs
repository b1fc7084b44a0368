//! A list put together event by event, for the example guide and for what is timed.

use crate::bim;
use crate::writer;

/// Events and texts so far.
#[derive(Clone)]
pub struct List {
    /// The mode.
    pub mode: u32,
    /// Whether, where lengths are optional, an element of this name has a length.
    sized: fn(u32) -> bool,
    /// The events, their fourth words 0.
    pub events: Vec<[u32; 4]>,
    /// The texts.
    pub texts: Vec<u8>,
}

impl List {
    /// An empty list; where lengths are optional, the elements that are `sized` have one.
    pub fn new(mode: u32, sized: fn(u32) -> bool) -> Self {
        List { mode, sized, events: vec![], texts: vec![] }
    }

    fn event(&mut self, kind: u32, p: u32, q: u32) -> &mut Self {
        self.events.push([kind, p, q, 0]);
        self
    }

    /// Start.
    pub fn start(&mut self, name: u32) -> &mut Self {
        let lengths = self.mode % bim::CASTING;
        let coded = lengths == bim::MODE_ALWAYS || lengths == bim::MODE_OPTIONAL && (self.sized)(name);
        self.event(bim::KIND_START, name, coded.into())
    }

    /// The effective type, and the substitute from 1 or 0.
    pub fn cast(&mut self, of_type: u32, substitute: u32) -> &mut Self {
        self.event(bim::KIND_CAST, of_type, substitute)
    }

    /// An attribute, absent or with its value.
    pub fn attribute(&mut self, name: u32, value: Option<u32>) -> &mut Self {
        self.event(bim::KIND_ATTRIBUTE, name, value.is_some().into());
        match value {
            Some(value) => self.value(value),
            None => self,
        }
    }

    /// A value that is no text.
    pub fn value(&mut self, word: u32) -> &mut Self {
        self.event(bim::KIND_VALUE, word, 0)
    }

    /// A date, by its two words.
    pub fn date(&mut self, [word, second]: [u32; 2]) -> &mut Self {
        self.event(bim::KIND_VALUE, word, second)
    }

    /// A text.
    pub fn text(&mut self, text: &str) -> &mut Self {
        self.texts.extend(text.bytes());
        self.value(text.len() as u32)
    }

    /// Pick.
    pub fn pick(&mut self, branch: u32) -> &mut Self {
        self.event(bim::KIND_PICK, branch, 0)
    }

    /// Times.
    pub fn times(&mut self, count: u32) -> &mut Self {
        self.event(bim::KIND_TIMES, count, 0)
    }

    /// End.
    pub fn end(&mut self) -> &mut Self {
        self.event(bim::KIND_END, 0, 0)
    }

    /// An element of one value that is no text.
    pub fn simple(&mut self, name: u32, word: u32) -> &mut Self {
        self.start(name).value(word).end()
    }

    /// An element of one text.
    pub fn text_element(&mut self, name: u32, text: &str) -> &mut Self {
        self.start(name).text(text).end()
    }

    /// The payload that the peer writes for party 0, or the number of its refusal.
    pub fn payload(&self, table: &[u32], root: (u32, u32)) -> Result<Vec<u8>, u32> {
        let mut payload = vec![0; bim::MOST_PAYLOAD];
        let answer =
            writer::write(table, 0, root.0, root.1, self.mode, &self.events.concat(), &self.texts, &mut payload);
        payload.truncate(answer.bits.div_ceil(8));
        if answer.is_accepted() {
            Ok(payload)
        } else {
            Err(answer.number)
        }
    }
}
