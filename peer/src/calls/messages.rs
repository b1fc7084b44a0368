//! The C calls of the start-up message against `init`, in buffers of junk between guards, and what the request promises of their answers:
//! meanings spelt, messages with every byte missing, changed or repeated, messages with a fault of known place, and words to be written with
//! each of them changed.

use super::bench::Lent;
use crate::bim;
use crate::gen::edge_word;
use crate::init;
use crate::meaning::{any_meaning, faulty, Meaning, Spelt};
use crate::rng::Rng;
use crate::tally::{Numbers, Tally};
use crate::words::{big_endian, hex, words_of};
use std::hint::black_box;

/// The C calls of the start-up message, with their buffers as slices.
pub trait MessageCalls {
    /// `bim_init_read`.
    fn init_read(&self, message: &[u8], codecs: &mut [u8], init: &mut [u8]) -> u32;
    /// `bim_init_write`.
    fn init_write(&self, init: &[u8], codecs: &[u8], given: &[u8], message: &mut [u8], area: &mut [u8]) -> u32;
}

/// The peer's own calls, which judge the others.
pub struct MessageJudge;

impl MessageCalls for MessageJudge {
    fn init_read(&self, message: &[u8], codecs: &mut [u8], init: &mut [u8]) -> u32 {
        init::read(message, codecs, init)
    }

    fn init_write(&self, init: &[u8], codecs: &[u8], given: &[u8], message: &mut [u8], area: &mut [u8]) -> u32 {
        init::write(init, codecs, given, message, area)
    }
}

const READ: &str = "bim_init_read";
const WRITE: &str = "bim_init_write";
/// What each call can answer.
#[rustfmt::skip]
const NUMBERS: [Numbers; 2] = [
    (READ, &[
        bim::ACCEPTED, bim::PAST_END, bim::EVENT_ROOM, bim::NOT_SHORTEST, bim::TOO_LARGE, bim::NO_SUCH_CODE, bim::LEFT_OVER, bim::AREA_SIZE,
        bim::RESERVED_BITS, bim::NO_SCHEMAS, bim::MANY_SCHEMAS, bim::ADVANCED_FLAG,
    ]),
    (WRITE, &[
        bim::ACCEPTED, bim::NO_READING, bim::OUTSIDE_ROW, bim::PAYLOAD_ROOM, bim::TEXT_BYTES, bim::AREA_SIZE, bim::NO_SCHEMAS,
        bim::MANY_SCHEMAS, bim::ADVANCED_FLAG,
    ]),
];
/// The kinds of a round; some do the same.
const KINDS: usize = 10;
/// The most bytes of a message, or words, that are changed one at a time.
const MOST_CHANGED: usize = 80;

/// A call's input.
#[derive(Clone, Debug, PartialEq, Eq)]
pub enum MessageCase {
    /// A message to be read.
    Read {
        /// Given.
        message: Vec<u8>,
        /// Lent bytes for the codecs, and for what it says.
        rooms: [usize; 2],
    },
    /// Words to be written.
    Write {
        /// Given: `init`, `codecs` and the bytes of the stretches.
        inputs: [Vec<u8>; 3],
        /// Lent bytes for the message, and for the answer.
        rooms: [usize; 2],
    },
}

impl MessageCase {
    /// A message to be read, in room for so many words of codecs.
    pub fn read(message: &[u8], words: usize) -> Self {
        MessageCase::Read { message: message.to_vec(), rooms: [4 * words, bim::INIT] }
    }

    /// Words to be written into this room.
    pub fn write(init: &[u32], codecs: &[u32], given: &[u8], room: usize) -> Self {
        let inputs = [big_endian(init), big_endian(codecs), given.to_vec()];
        MessageCase::Write { inputs, rooms: [room, bim::INIT_AREA] }
    }

    fn inputs(&self) -> &[Vec<u8>] {
        match self {
            MessageCase::Read { message, .. } => std::slice::from_ref(message),
            MessageCase::Write { inputs, .. } => inputs,
        }
    }

    fn rooms(&self) -> [usize; 2] {
        match *self {
            MessageCase::Read { rooms, .. } | MessageCase::Write { rooms, .. } => rooms,
        }
    }

    fn name(&self) -> &'static str {
        match self {
            MessageCase::Read { .. } => READ,
            MessageCase::Write { .. } => WRITE,
        }
    }

    fn size(&self) -> usize {
        self.inputs().iter().map(Vec::len).sum()
    }

    /// Asks these calls, with buffers of any kind.
    fn ask<I: AsRef<[u8]>, O: AsMut<[u8]>>(&self, calls: &dyn MessageCalls, inputs: &[I], outputs: &mut [O; 2]) -> u32 {
        let [one, other] = outputs.each_mut().map(AsMut::as_mut);
        match self {
            MessageCase::Read { .. } => calls.init_read(inputs[0].as_ref(), one, other),
            MessageCase::Write { .. } => {
                calls.init_write(inputs[0].as_ref(), inputs[1].as_ref(), inputs[2].as_ref(), one, other)
            }
        }
    }

    fn shown(&self) -> String {
        let inputs: Vec<_> = self.inputs().iter().map(|bytes| hex(&bytes[..bytes.len().min(600)])).collect();
        format!("{} of {} in rooms {:?}", self.name(), inputs.join(", "), self.rooms())
    }
}

/// What a call left: the number, then of a reading codecs and `init`, of a writing message and area.
#[derive(Clone, Debug, PartialEq, Eq)]
pub struct MessageLeft {
    /// The answer.
    pub number: u32,
    /// The two buffers.
    pub outputs: [Vec<u8>; 2],
}

impl MessageLeft {
    /// Whether the call was accepted.
    pub fn is_accepted(&self) -> bool {
        self.number == bim::ACCEPTED
    }

    /// The words of `init`, or of the area.
    pub fn words(&self) -> Vec<u32> {
        words_of(&self.outputs[1])
    }
}

/// What the peer leaves.
pub fn on_message_peer(case: &MessageCase) -> MessageLeft {
    let mut outputs = case.rooms().map(|room| vec![0xdd; room]);
    let number = case.ask(&MessageJudge, case.inputs(), &mut outputs);
    MessageLeft { number, outputs }
}

/// The calls on trial, and what they answered so far.
pub struct MessageBench<'a> {
    calls: &'a dyn MessageCalls,
    junk: Rng,
    tally: Tally,
    cases: u64,
    /// How often each promise was held of an answer.
    held: [u64; PROMISES.len()],
    smallest: Option<MessageCase>,
}

/// The page's theorems, in its words.
const PROMISES: [&str; 7] = [
    "an accepted message is spelt, and the words say it",
    "words that say a meaning are written so",
    "words that say none are refused",
    "written, it reads back",
    "a message is written back to the same bytes",
    "none begins another",
    "a fault has its number and place",
];

/// The named cases, then at least `cases` seeded calls. `long_messages` asks those that take memory.
pub fn run(calls: &dyn MessageCalls, cases: u64, seed: u64) -> MessageBench<'_> {
    let mut bench = MessageBench::new(calls, seed);
    for case in crate::message_cases::all() {
        bench.ask(&case.call);
    }
    let mut rng = Rng::new(seed.wrapping_mul(4).wrapping_add(2));
    // Each kind of round once, so that few cases meet every number, too.
    for kind in 0..KINDS {
        bench.round(&mut rng, kind);
    }
    while bench.cases < cases {
        let kind = rng.below(KINDS);
        bench.round(&mut rng, kind);
    }
    bench
}

impl<'a> MessageBench<'a> {
    /// Nothing asked yet.
    pub fn new(calls: &'a dyn MessageCalls, seed: u64) -> Self {
        let junk = Rng::new(!seed);
        MessageBench { calls, junk, tally: Tally::default(), cases: 0, held: [0; PROMISES.len()], smallest: None }
    }

    /// The differences found.
    pub fn differing(&self) -> u64 {
        self.tally.differing()
    }

    /// The calls made so far.
    pub fn calls(&self) -> u64 {
        self.cases
    }

    /// Asks both, and holds what is promised of what the calls on trial answer.
    pub fn ask(&mut self, case: &MessageCase) -> MessageLeft {
        let left = self.compare(case);
        match case {
            MessageCase::Read { message, .. } if left.is_accepted() => self.hold_read(case, message, &left),
            MessageCase::Write { inputs: [init, codecs, given], rooms } if rooms[1] == bim::INIT_AREA => {
                self.hold_written(case, [init, codecs, given], &left);
            }
            _ => {}
        }
        left
    }

    /// Asks both in buffers of junk between guards, and keeps a difference.
    fn compare(&mut self, case: &MessageCase) -> MessageLeft {
        let mut inputs: Vec<_> = case.inputs().iter().map(|bytes| Lent::holding(&mut self.junk, bytes)).collect();
        let mut outputs = case.rooms().map(|room| Lent::of_junk(&mut self.junk, room));
        let number = case.ask(self.calls, &inputs, &mut outputs);
        black_box((&mut inputs, &mut outputs));
        let beside = inputs.iter().chain(&outputs).any(|lent| !lent.guards_stand());
        let given = inputs.iter().zip(case.inputs()).any(|(lent, bytes)| lent.lent() != bytes);
        let got = MessageLeft { number, outputs: outputs.each_ref().map(|lent| lent.lent().to_vec()) };
        let expected = on_message_peer(case);
        self.cases += 1;
        self.tally.count(case.name(), expected.number);
        if got != expected || beside || given {
            let places = [&got, &expected].map(|left| left.words().first().copied());
            let what = format!(
                "number {}, the peer's {}; first words {places:?}; buffers {}, beside them {}, inputs {}",
                got.number,
                expected.number,
                if got.outputs == expected.outputs { "the same" } else { "other" },
                if beside { "changed" } else { "as it was" },
                if given { "changed" } else { "as they were" },
            );
            self.differ(case, what);
        }
        got
    }

    fn differ(&mut self, case: &MessageCase, what: String) {
        self.tally.differ(|| format!("{what}: {}", case.shown()));
        if self.smallest.as_ref().is_none_or(|smallest| case.size() < smallest.size()) {
            self.smallest = Some(case.clone());
        }
    }

    fn hold(&mut self, case: &MessageCase, promise: usize, good: bool, what: impl FnOnce() -> String) {
        self.held[promise] += 1;
        if !good {
            self.differ(case, format!("NOT SO: {}: {}", PROMISES[promise], what()));
        }
    }

    /// Of an accepted message: (a), (c), (d) and (e).
    fn hold_read(&mut self, case: &MessageCase, message: &[u8], left: &MessageLeft) {
        let (mut init, codecs) = (left.words(), words_of(&left.outputs[0]));
        let first = std::mem::replace(&mut init[init::FIRST_STEPPED], 0);
        let used = init[init::CODEC_WORDS] as usize;
        let meaning = Meaning::said(&init, &codecs, message);
        let spelt = meaning.as_ref().map(Meaning::spelt);
        let told = spelt.as_ref().is_some_and(|spelt| {
            let bits = spelt.stepped_in(message);
            spelt.init == init && spelt.codecs == codecs[..used] && bits.is_some_and(|bits| bits == first)
        });
        self.hold(case, 0, told, || format!("{meaning:?} of {init:?}, {codecs:?}"));
        let Some(spelt) = spelt else {
            return;
        };
        // With itself as `given`: the same but for bits stepped over, which are zeros then; one that says so is not written.
        let bytes = spelt.bytes();
        let back = MessageCase::write(&init, &codecs[..used], message, message.len());
        let written = self.compare(&back);
        self.hold(&back, 4, written.is_accepted() && written.outputs[0] == bytes, || format!("{written:02x?}"));
        let again = self.compare(&MessageCase::read(&bytes, used));
        let same = again.words() == init && words_of(&again.outputs[0]) == codecs[..used];
        self.hold(&back, 3, again.is_accepted() && same, || format!("{again:02x?}"));
        if first != 0 {
            let mut words = init;
            words[init::FIRST_STEPPED] = first;
            let kept = self.compare(&MessageCase::write(&words, &codecs[..used], message, message.len()));
            let refused = (kept.number, kept.words()) == (bim::OUTSIDE_ROW, vec![init::FIRST_STEPPED as u32, 0]);
            self.hold(&back, 2, refused, || format!("{kept:02x?}"));
        }
        // Longer, it has bytes left where it ends; shorter, it ends too early.
        let ended = self.compare(&MessageCase::read(&[message, message].concat(), used));
        let cut = self.compare(&MessageCase::read(&message[..self.junk.clone().below(message.len())], used));
        let good = (ended.number, ended.words()[0]) == (bim::LEFT_OVER, 8 * message.len() as u32);
        self.hold(case, 5, good && cut.number == bim::PAST_END, || format!("{ended:02x?}, {cut:02x?}"));
    }

    /// Of words to be written: (b) and (c).
    fn hold_written(&mut self, case: &MessageCase, [init, codecs, given]: [&[u8]; 3], left: &MessageLeft) {
        let meaning = match init.len() {
            bim::INIT => Meaning::said(&words_of(init), &words_of(codecs), given),
            _ => None,
        };
        let Some(meaning) = meaning else {
            let good = !left.is_accepted() && left.outputs[0].iter().all(|&byte| byte == 0);
            return self.hold(case, 2, good, || format!("{left:02x?}"));
        };
        let (spelt, room) = (meaning.spelt(), case.rooms()[0]);
        let bytes = spelt.bytes();
        let good = match bytes.len() <= room {
            true => {
                let message = left.outputs[0].split_at(bytes.len());
                left.is_accepted()
                    && left.words() == [0, bytes.len() as u32]
                    && message.0 == bytes
                    && message.1.iter().all(|&byte| byte == 0)
            }
            false => (left.number, left.words()) == (bim::PAYLOAD_ROOM, vec![0, 0]),
        };
        self.hold(case, 1, good, || format!("{left:02x?} of {meaning:?}"));
        if left.is_accepted() {
            let again = self.compare(&MessageCase::read(&bytes, spelt.codecs.len()));
            let same = again.words() == spelt.init && words_of(&again.outputs[0]) == spelt.codecs;
            self.hold(case, 3, again.is_accepted() && same, || format!("{again:02x?}"));
        }
    }

    /// One seeded round, of this kind.
    fn round(&mut self, rng: &mut Rng, kind: usize) {
        let meaning = any_meaning(rng);
        let spelt = meaning.spelt();
        match kind {
            0..=1 => self.meanings(rng, &spelt),
            2..=3 => self.damaged(rng, &spelt),
            4 => self.with_faults(rng, &spelt),
            5 => self.other_rooms(rng, &spelt),
            6..=7 => self.other_words(rng, &meaning),
            8 => self.elsewhere(rng, &meaning),
            _ => self.noise(rng),
        }
    }

    /// A meaning read in exactly the room that it takes and in more, with any bits to step over.
    fn meanings(&mut self, rng: &mut Rng, spelt: &Spelt) {
        let words = spelt.codecs.len();
        let (message, first) = spelt.with_stepped(|| rng.one_in(2));
        for (message, first) in [(spelt.bytes(), 0), (message, first)] {
            let rooms = [4 * words + rng.pick(&[0, 0, 1, 3, 4, 50]), bim::INIT];
            let case = MessageCase::Read { message, rooms };
            let left = self.ask(&case);
            let mut init = spelt.init.clone();
            init[init::FIRST_STEPPED] = first;
            self.hold(&case, 0, left.is_accepted() && left.words() == init, || format!("{left:02x?}"));
        }
    }

    /// Every byte missing, repeated, changed in a bit and turned into another; and the message cut there.
    fn damaged(&mut self, rng: &mut Rng, spelt: &Spelt) {
        let (whole, _) = spelt.with_stepped(|| rng.one_in(4));
        let words = spelt.codecs.len() + rng.below(9);
        let from = rng.below(whole.len().saturating_sub(MOST_CHANGED) + 1);
        for at in from..whole.len().min(from + MOST_CHANGED) {
            let (before, behind) = (&whole[..at], &whole[at + 1..]);
            let flipped = whole[at] ^ 1 << rng.below(8);
            let other = rng.pick(&[0, 1, 0x0f, 0x1f, 0x7f, 0x80, 0x81, 0xff, rng.clone().word() as u8]);
            for message in [
                before.to_vec(),
                [before, behind].concat(),
                [&whole[..=at], &whole[at..]].concat(),
                [before, &[flipped], behind].concat(),
                [before, &[other], behind].concat(),
            ] {
                self.ask(&MessageCase::read(&message, words));
            }
        }
    }

    /// Faults whose number and place are known.
    fn with_faults(&mut self, rng: &mut Rng, spelt: &Spelt) {
        for _ in 0..40 {
            let fault = faulty(rng, spelt);
            let case = MessageCase::read(&fault.message, fault.room);
            let left = self.ask(&case);
            let mut init = vec![0; init::WORDS];
            init[0] = fault.place;
            let good =
                left.number == fault.number && left.words() == init && left.outputs[0].iter().all(|&byte| byte == 0);
            self.hold(&case, 6, good, || format!("{left:02x?} where {} at {} is due", fault.number, fault.place));
        }
    }

    /// Areas, lists and messages of any room.
    fn other_rooms(&mut self, rng: &mut Rng, spelt: &Spelt) {
        let message = spelt.bytes();
        for area in [0, 4, 8, 127, 128, 129, 152, rng.below(300)] {
            let (words, room) = (4 * spelt.codecs.len(), message.len());
            self.ask(&MessageCase::Read { message: message.clone(), rooms: [rng.below(words + 8), area] });
            let inputs = [big_endian(&spelt.init), big_endian(&spelt.codecs), message.clone()];
            let rooms = [room - rng.below(2), rng.pick(&[7, 9, 8, area])];
            self.ask(&MessageCase::Write { inputs: inputs.clone(), rooms });
            // `init` and `codecs` of another size.
            let [mut init, mut codecs, given] = inputs;
            init.resize(area, 0);
            codecs.resize(rng.below(codecs.len() + 9), 7);
            self.ask(&MessageCase::Write { inputs: [init, codecs, given], rooms: [room, bim::INIT_AREA] });
        }
        for room in message.len().saturating_sub(3)..message.len() + 2 {
            self.ask(&MessageCase::write(&spelt.init, &spelt.codecs, &message, room));
        }
    }

    /// Each word changed, by itself.
    fn other_words(&mut self, rng: &mut Rng, meaning: &Meaning) {
        let spelt = meaning.spelt();
        let message = spelt.bytes();
        let room = message.len() + rng.below(40);
        let all = spelt.init.len() + spelt.codecs.len();
        for at in 0..all.min(init::WORDS + MOST_CHANGED) {
            let (mut init, mut codecs) = (spelt.init.clone(), spelt.codecs.clone());
            let word = match at.checked_sub(init::WORDS) {
                None => &mut init[at],
                Some(at) => &mut codecs[at],
            };
            *word = other_word(rng, *word, message.len() as u32);
            self.ask(&MessageCase::write(&init, &codecs, &message, room));
        }
        // Two words, and fewer bytes for the stretches.
        for _ in 0..4 {
            let mut init = spelt.init.clone();
            for _ in 0..2 {
                let at = rng.below(init::WORDS);
                init[at] = other_word(rng, init[at], message.len() as u32);
            }
            self.ask(&MessageCase::write(&init, &spelt.codecs, &message, room));
            self.ask(&MessageCase::write(&spelt.init, &spelt.codecs, &message[..rng.below(message.len())], room));
        }
    }

    /// The same meaning, its texts lying anywhere among other bytes, one in the other where they are the same.
    fn elsewhere(&mut self, rng: &mut Rng, meaning: &Meaning) {
        let spelt = meaning.spelt();
        let (mut init, mut codecs) = (spelt.init.clone(), spelt.codecs.clone());
        let message = spelt.bytes();
        let mut given: Vec<u8> = (0..rng.below(9)).map(|_| rng.word() as u8).collect();
        let mut lay = |rng: &mut Rng, stretch: &mut [u32]| {
            let text = &message[stretch[0] as usize..][..stretch[1] as usize];
            let there = if text.is_empty() { None } else { given.windows(text.len()).position(|bytes| bytes == text) };
            stretch[0] = there.unwrap_or_else(|| {
                given.extend((0..rng.below(3)).map(|_| rng.word() as u8));
                given.extend(text);
                given.len() - text.len()
            }) as u32;
        };
        lay(rng, &mut init[init::DESCRIPTION..][..2]);
        lay(rng, &mut init[init::FORMATS..][..2]);
        for schema in (init::FIRST_SCHEMA..).step_by(init::SCHEMA_WORDS).take(meaning.schemas.len()) {
            lay(rng, &mut init[schema + 2..][..2]);
            lay(rng, &mut init[schema..][..2]);
        }
        let mut at = 0;
        for codec in meaning.schemas.iter().flat_map(|schema| &schema.codecs) {
            lay(rng, &mut codecs[at..][..2]);
            at += 3 + codec.types.len();
        }
        // What is not looked at may hold anything.
        init[0] = rng.word();
        init[init::FIRST_SCHEMA + init::SCHEMA_WORDS * meaning.schemas.len()..].fill_with(|| rng.word());
        codecs.extend((0..rng.below(4)).map(|_| rng.word()));
        let case = MessageCase::write(&init, &codecs, &given, message.len() + rng.below(5));
        let left = self.ask(&case);
        self.hold(&case, 1, left.outputs[0].starts_with(&message), || format!("{left:02x?}"));
    }

    /// Bytes of which many get some way.
    fn noise(&mut self, rng: &mut Rng) {
        for _ in 0..20 {
            let bytes = rng.below(40);
            let message: Vec<_> = (0..bytes)
                .map(|_| rng.pick(&[0, 0, 0, 1, 1, 1, 2, 3, 4, 5, 0x0f, 0x1f, 0x80, 0x81, rng.clone().word() as u8]))
                .collect();
            let begin: &[u8] = rng.pick(&[&[], &[0, 0x1f], &[0, 0x1f, 1, 1], &[0, 0x0f, 1, 8, 1, 1]]);
            let message = [begin, &message].concat();
            self.ask(&MessageCase::read(&message, rng.below(30)));
            let words: Vec<_> = (0..init::WORDS).map(|_| if rng.one_in(4) { edge_word(rng) } else { 1 }).collect();
            self.ask(&MessageCase::write(&words, &[0, 0, 0, 0], &message, 99));
        }
    }

    /// Messages whose content ends around the last byte that is read, in half a gigabyte, of which most pages are never touched.
    pub fn long_messages(&mut self) {
        const CODECS: usize = bim::MOST_VLU8 as usize;
        // A codec is a count of two bytes, its URI and no types.
        let codec = CODECS + 3;
        let begin: &[u8] = &[0, 0x1f, 2, 1, b'u', 0, 0xff, 0x7f];
        let second: &[u8] = &[1, b'v', 0, 0xff, 0x7f];
        let whole = begin.len() + second.len() + 2 * CODECS * codec + 1;
        let mut bytes = vec![0; whole + 2];
        for content in [bim::MOST_MESSAGE - 1, bim::MOST_MESSAGE, bim::MOST_MESSAGE + 1, whole] {
            // The last codecs are shorter, so that the content ends where it should.
            let mut less = whole - content;
            let mut at = 0;
            for (schema, begin) in [begin, second].into_iter().enumerate() {
                bytes[at..at + begin.len()].copy_from_slice(begin);
                at += begin.len();
                for index in 0..CODECS {
                    let last = schema == 1 && index + 8 >= CODECS;
                    let short = if last { less.min(CODECS - 200) } else { 0 };
                    less -= short;
                    let count = CODECS - short;
                    bytes[at..at + 2].copy_from_slice(&[0x80 | (count >> 7) as u8, (count & 0x7f) as u8]);
                    bytes[at + 2 + count] = 0;
                    at += 3 + count;
                }
            }
            assert_eq!((less, at + 1), (0, content));
            bytes[at] = 0;
            for length in [content, content + 1, bim::MOST_MESSAGE - 1, bim::MOST_MESSAGE] {
                // What lies past the last byte that is read is past the end, and what is left behind the content is left all the same.
                let number = match content {
                    _ if length < content || bim::MOST_MESSAGE < content => bim::PAST_END,
                    _ if content < length => bim::LEFT_OVER,
                    _ => bim::ACCEPTED,
                };
                self.ask_long(&bytes[..length], 3 * 2 * CODECS, number, content);
            }
        }
    }

    /// Asks both without a copy of the message. The number is known, and so is the place where bytes are left behind the content.
    fn ask_long(&mut self, message: &[u8], words: usize, number: u32, content: usize) {
        let answer = |calls: &dyn MessageCalls| {
            let (mut codecs, mut init) = (vec![0xdd; 4 * words], vec![0xdd; bim::INIT]);
            let number = calls.init_read(message, &mut codecs, &mut init);
            black_box((number, codecs, init))
        };
        let (got, expected) = (answer(self.calls), answer(&MessageJudge));
        self.cases += 1;
        self.tally.count(READ, expected.0);
        let place = words_of(&got.2)[0];
        let left = number != bim::LEFT_OVER || place as usize == 8 * content;
        if got != expected || got.0 != number || !left {
            let (bytes, right) = (message.len(), expected.0);
            self.tally.differ(|| format!("{bytes} bytes: {} at {place}, the peer's {right}, due {number}", got.0));
        }
    }

    /// Prints how often each call answered what.
    pub fn report_answers(&self) {
        for (call, calls, numbers) in self.tally.rows() {
            println!("{call}: {calls} calls   {numbers}");
        }
    }

    /// Prints all; true where there is no difference, every number of each call was met and every promise held of some answer.
    pub fn report(&self) -> bool {
        self.report_answers();
        let mut good = self.tally.has_met(&NUMBERS);
        for (promise, times) in PROMISES.iter().zip(self.held) {
            println!("{promise}: {times} times");
            good &= times > 0;
        }
        println!("start-up messages: {} calls in all, {} differences", self.cases, self.tally.differing());
        if let Some(case) = &self.smallest {
            println!("SMALLEST: {}", case.shown());
        }
        self.tally.shows_none() && good
    }
}

/// Another word: at an edge, near what it was, or near the bytes' end.
pub(super) fn other_word(rng: &mut Rng, word: u32, bytes: u32) -> u32 {
    match rng.below(8) {
        0 => word.wrapping_add(1),
        1 => word.wrapping_sub(1),
        2 => rng.pick(&[0, 4, 5, 6, 7, 8, 36, 64, 127, 128, 255, 256, 16_383, 16_384, 131_057, 131_065]),
        3 => bytes.wrapping_sub(rng.below(4) as u32),
        4 => bytes + rng.below(2) as u32,
        5 => word ^ 1 << rng.below(32),
        6 => u32::MAX - rng.below(3) as u32,
        _ => edge_word(rng),
    }
}
