//! What a start-up message means, and how that is spelt: the start-up message once more, from its meaning on, for what judges `init`. It
//! shares no code with that.

use crate::bim;
use crate::rng::Rng;

/// An optimised codec, and the types it is for.
#[derive(Clone, Debug, PartialEq, Eq)]
pub struct Codec {
    /// Any bytes, none too.
    pub uri: Vec<u8>,
    /// Type identification codes.
    pub types: Vec<u32>,
}

/// One schema of the list.
#[derive(Clone, Debug, PartialEq, Eq)]
pub struct Schema {
    /// At least a byte.
    pub uri: Vec<u8>,
    /// The location hint, mostly empty.
    pub hint: Vec<u8>,
    /// Its codecs.
    pub codecs: Vec<Codec>,
}

/// The flags of the amended form.
#[derive(Clone, Copy, Debug, PartialEq, Eq)]
pub struct Flags {
    /// In bytes, 1 to 16,383.
    pub length: u32,
    /// Of `INSERT_FLAG`, `FRAGMENT_REFERENCE_FLAG`, `MPC_ONLY_FLAG` and `HIERARCHY_FLAG` some.
    pub set: u32,
}

/// What a message means: each part within its field.
#[derive(Clone, Debug, PartialEq, Eq)]
pub struct Meaning {
    /// Profile and level.
    pub profile: u32,
    /// The unit size code.
    pub unit: u32,
    /// None in the first form.
    pub flags: Option<Flags>,
    /// One to four.
    pub schemas: Vec<Schema>,
    /// The reference formats, where FragmentReferenceFlag is set.
    pub formats: Vec<u8>,
    /// The initial description.
    pub description: Vec<u8>,
}

/// What an item is.
#[derive(Clone, Copy, Debug, PartialEq, Eq)]
pub enum Part {
    /// Profile and level.
    Profile,
    /// Unit size code, whether there are flags, reserved bits.
    Unit,
    /// The bytes of the flags.
    Length,
    /// The flags, and what is stepped over.
    Flags,
    /// How many schemas.
    Schemas,
    /// A schema's URI.
    Uri,
    /// Its location hint.
    Hint,
    /// How many codecs.
    Codecs,
    /// A codec's URI.
    CodecUri,
    /// How many types.
    Types,
    /// A type.
    Type,
    /// The reference formats.
    Formats,
    /// The initial description.
    Description,
}

impl Part {
    /// The words that it takes among those of the codecs.
    pub fn list_words(self) -> usize {
        match self {
            Part::CodecUri => 2,
            Part::Types | Part::Type => 1,
            _ => 0,
        }
    }

    /// Whether it begins with a vluimsbf8.
    pub fn has_number(self) -> bool {
        !matches!(self, Part::Unit | Part::Flags | Part::Formats)
    }
}

/// An item as it is spelt.
#[derive(Clone, Debug)]
pub struct Item {
    /// What it is.
    pub part: Part,
    /// Its bytes.
    pub bytes: Vec<u8>,
}

/// A meaning spelt, and the words that say it of those bytes.
#[derive(Clone, Debug)]
pub struct Spelt {
    /// Item by item.
    pub items: Vec<Item>,
    /// The 32 words.
    pub init: Vec<u32>,
    /// The words of the codecs.
    pub codecs: Vec<u32>,
}

impl Spelt {
    /// The message.
    pub fn bytes(&self) -> Vec<u8> {
        self.items.iter().flat_map(|item| item.bytes.clone()).collect()
    }

    /// The byte at which the item of this index begins.
    pub fn begin(&self, index: usize) -> usize {
        self.items[..index].iter().map(|item| item.bytes.len()).sum()
    }

    /// The message with bits other than zeros where they are stepped over, and the first of them.
    pub fn with_stepped(&self, mut bit: impl FnMut() -> bool) -> (Vec<u8>, u32) {
        let (mut message, mut first) = (self.bytes(), 0);
        let flags = self.items.iter().position(|item| item.part == Part::Flags);
        if let Some(index) = flags {
            let (begin, bytes) = (self.begin(index), self.items[index].bytes.len());
            for at in 8 * begin + 7..8 * (begin + bytes) {
                message[at / 8] |= u8::from(bit()) << (7 - at % 8);
            }
            first = u32::from(message[begin] & 1);
        }
        (message, first)
    }

    /// The first bit stepped over in a message that is this but for such bits; none of any other message.
    pub fn stepped_in(&self, message: &[u8]) -> Option<u32> {
        let mut first = 0;
        let mut rest = message;
        for item in &self.items {
            let (bytes, behind) = rest.split_at_checked(item.bytes.len())?;
            let same = match item.part {
                Part::Flags => {
                    first = u32::from(bytes[0] & 1);
                    bytes[0] & 0xfe == item.bytes[0]
                }
                _ => bytes == item.bytes,
            };
            rest = same.then_some(behind)?;
        }
        rest.is_empty().then_some(first)
    }
}

/// vluimsbf8: seven bits in each byte, whose top bit says that another follows.
pub fn eight(value: u32) -> Vec<u8> {
    match value {
        0..128 => vec![value as u8],
        _ => vec![128 + (value / 128) as u8, (value % 128) as u8],
    }
}

impl Meaning {
    /// How it is spelt, with zeros for what is stepped over.
    pub fn spelt(&self) -> Spelt {
        let mut all = Spelling::default();
        all.number(Part::Profile, self.profile);
        let first_form = if self.flags.is_none() { 16 } else { 0 };
        all.bytes(Part::Unit, vec![(32 * self.unit) as u8 + first_form + 15]);
        let (mut stepped, mut set) = (0, 0);
        if let Some(flags) = self.flags {
            all.number(Part::Length, flags.length);
            let mut bytes = vec![0; flags.length as usize];
            bytes[0] = (2 * flags.set) as u8;
            all.bytes(Part::Flags, bytes);
            (stepped, set) = (1 + 8 * (flags.length - 1), flags.set);
        }
        all.number(Part::Schemas, self.schemas.len() as u32);
        let mut schema_words = vec![];
        for schema in &self.schemas {
            let uri = all.counted(Part::Uri, &schema.uri);
            let hint = all.counted(Part::Hint, &schema.hint);
            all.number(Part::Codecs, schema.codecs.len() as u32);
            schema_words.extend([uri, hint].concat());
            schema_words.push(schema.codecs.len() as u32);
            for codec in &schema.codecs {
                let uri = all.counted(Part::CodecUri, &codec.uri);
                all.codecs.extend(uri);
                all.number(Part::Types, codec.types.len() as u32);
                all.codecs.push(codec.types.len() as u32);
                for &code in &codec.types {
                    all.number(Part::Type, code);
                    all.codecs.push(code);
                }
            }
        }
        schema_words.resize(20, 0);
        let mut formats = [0, 0];
        if set & bim::FRAGMENT_REFERENCE_FLAG != 0 {
            formats = [all.at + 1, self.formats.len() as u32];
            all.bytes(Part::Formats, [&[self.formats.len() as u8], &self.formats[..]].concat());
        }
        let description = all.counted(Part::Description, &self.description);
        let head = [0, self.profile, self.unit, stepped, set, 0, self.schemas.len() as u32, all.codecs.len() as u32];
        let init = [&head[..], &formats, &description, &schema_words].concat();
        Spelt { items: all.items, init, codecs: all.codecs }
    }

    /// The meaning that words and the bytes that their stretches lie in say; none where they say none. Word 0 says nothing.
    pub fn said(init: &[u32], codecs: &[u32], given: &[u8]) -> Option<Meaning> {
        let &[_, profile, unit, stepped, set, first, schemas, used, ref rest @ ..] = init else {
            return None;
        };
        let small = |value: u32| (value < 1 << 14).then_some(value);
        let text = |place: u32, count: u32| -> Option<Vec<u8>> {
            let place = place as usize;
            given.get(place..place + small(count)? as usize).map(<[u8]>::to_vec)
        };
        let flags = match (stepped, set) {
            (0, 0) => None,
            (1.., _) if stepped % 8 == 1 && stepped / 8 + 1 < 1 << 14 && set & !(64 + 4 + 2 + 1) == 0 => {
                Some(Flags { length: stepped / 8 + 1, set })
            }
            _ => return None,
        };
        let has_formats = set & 4 != 0;
        if rest.len() != 24 || unit > 6 || first != 0 || !(1..=4).contains(&schemas) {
            return None;
        }
        let mut list = codecs.get(..used as usize)?.iter().copied();
        let mut said = vec![];
        for schema in rest[4..].chunks_exact(5).take(schemas as usize) {
            let uri = text(schema[0], schema[1]).filter(|uri| !uri.is_empty())?;
            let hint = text(schema[2], schema[3])?;
            let mut codecs = vec![];
            for _ in 0..small(schema[4])? {
                let uri = text(list.next()?, list.next()?)?;
                let types = small(list.next()?)?;
                let types = (0..types).map(|_| list.next().and_then(small)).collect::<Option<_>>()?;
                codecs.push(Codec { uri, types });
            }
            said.push(Schema { uri, hint, codecs });
        }
        let formats = match (has_formats, rest[1]) {
            (true, 0..256) => text(rest[0], rest[1])?,
            (false, 0) => vec![],
            _ => return None,
        };
        let description = text(rest[2], rest[3])?;
        let meaning = Meaning { profile: small(profile)?, unit, flags, schemas: said, formats, description };
        list.next().is_none().then_some(meaning)
    }
}

/// Items as they come, and the byte that is next.
#[derive(Default)]
struct Spelling {
    items: Vec<Item>,
    codecs: Vec<u32>,
    at: u32,
}

impl Spelling {
    fn bytes(&mut self, part: Part, bytes: Vec<u8>) {
        self.at += bytes.len() as u32;
        self.items.push(Item { part, bytes });
    }

    fn number(&mut self, part: Part, value: u32) {
        self.bytes(part, eight(value));
    }

    /// Gives the stretch.
    fn counted(&mut self, part: Part, text: &[u8]) -> [u32; 2] {
        self.bytes(part, [&eight(text.len() as u32), text].concat());
        [self.at - text.len() as u32, text.len() as u32]
    }
}

/// A number from 0 to 16,383, mostly small or at an edge of its code.
fn any_number(rng: &mut Rng) -> u32 {
    match rng.below(4) {
        0 => rng.pick(&[0, 1, 127, 128, 129, 255, 256, 16_382, 16_383]),
        1 => rng.below(1 << 14) as u32,
        _ => rng.below(9) as u32,
    }
}

/// A text of at least `least` bytes; now and then one whose count has two bytes.
fn any_text(rng: &mut Rng, least: usize) -> Vec<u8> {
    let bytes = match rng.below(40) {
        0 => rng.pick(&[127, 128, 129]),
        1 if rng.one_in(30) => rng.pick(&[16_382, 16_383]),
        _ => rng.within(least, 6),
    };
    (0..bytes).map(|_| if rng.one_in(3) { rng.word() as u8 } else { rng.pick(b"urn:ab/\\ -\0\x80\xff") }).collect()
}

/// A seeded meaning.
pub fn any_meaning(rng: &mut Rng) -> Meaning {
    let flags = (!rng.one_in(3)).then(|| {
        let length = match rng.below(12) {
            0 => rng.pick(&[127, 128]),
            1 if rng.one_in(30) => rng.pick(&[16_382, 16_383]),
            _ => rng.within(1, 3) as u32,
        };
        let set = [bim::INSERT_FLAG, bim::FRAGMENT_REFERENCE_FLAG, bim::MPC_ONLY_FLAG, bim::HIERARCHY_FLAG];
        Flags { length, set: set.into_iter().filter(|_| rng.one_in(2)).sum() }
    });
    let schemas = (0..rng.within(1, 4)).map(|_| any_schema(rng)).collect();
    let formats = match flags {
        Some(flags) if flags.set & bim::FRAGMENT_REFERENCE_FLAG != 0 => {
            let count = if rng.one_in(12) { rng.pick(&[127, 128, 254, 255]) } else { rng.below(4) };
            (0..count).map(|_| rng.word() as u8).collect()
        }
        _ => vec![],
    };
    Meaning {
        profile: any_number(rng),
        unit: rng.below(7) as u32,
        flags,
        schemas,
        formats,
        description: any_text(rng, 0),
    }
}

fn any_schema(rng: &mut Rng) -> Schema {
    let codecs = match rng.below(40) {
        0 => rng.pick(&[127, 128]),
        _ => rng.below(3),
    };
    let any_codec = |rng: &mut Rng| {
        let types = if rng.one_in(60) { rng.pick(&[127, 128]) } else { rng.below(4) };
        let uri = if codecs > 9 { vec![] } else { any_text(rng, 0) };
        Codec { uri, types: (0..if codecs > 9 { 0 } else { types }).map(|_| any_number(rng)).collect() }
    };
    let codecs = (0..codecs).map(|_| any_codec(rng)).collect();
    Schema { uri: any_text(rng, 1), hint: if rng.one_in(2) { vec![] } else { any_text(rng, 0) }, codecs }
}

/// A message with one fault in it, and the number and place it has to be refused with.
#[derive(Clone, Debug)]
pub struct Faulty {
    /// The message.
    pub message: Vec<u8>,
    /// Lent words for the codecs: fewer than they have only where that is the fault.
    pub room: usize,
    /// What the answer has to be.
    pub number: u32,
    /// The bit.
    pub place: u32,
}

/// One fault put into a message, in an item of it.
pub fn faulty(rng: &mut Rng, spelt: &Spelt) -> Faulty {
    let index = rng.below(spelt.items.len());
    let (item, begin) = (&spelt.items[index], spelt.begin(index));
    let (whole, room) = (spelt.bytes(), spelt.codecs.len());
    let refused = |message: Vec<u8>, number: u32| Faulty { message, room, number, place: 8 * begin as u32 };
    // The item's bytes are replaced by these.
    let with = |bytes: &[u8]| [&whole[..begin], bytes, &whole[begin + item.bytes.len()..]].concat();
    let text = item.bytes.len() - if item.part.has_number() && item.bytes[0] >= 128 { 2 } else { 1 };
    match rng.below(6) {
        // The message ends inside the item.
        0 => return refused(whole[..begin + rng.below(item.bytes.len())].to_vec(), bim::PAST_END),
        // A second byte whose top bit is set too.
        1 if item.part.has_number() => {
            let first = rng.within(128, 255) as u8;
            return refused(with(&[first, rng.within(128, 255) as u8]), bim::TOO_LARGE);
        }
        // The same number, or any other below 128, in two bytes.
        2 if item.part.has_number() => return refused(with(&[128, rng.below(128) as u8]), bim::NOT_SHORTEST),
        // Bytes behind the end.
        3 => {
            let mut message = whole.clone();
            message.extend((0..rng.within(1, 3)).map(|_| rng.word() as u8));
            return Faulty { message, room, number: bim::LEFT_OVER, place: 8 * whole.len() as u32 };
        }
        // Too few words for the codecs.
        4 if room > 0 => {
            let few = rng.below(room);
            let mut words = 0;
            let no_room = |item: &Item| {
                words += item.part.list_words();
                words > few
            };
            if let Some(index) = spelt.items.iter().position(no_room) {
                let place = 8 * spelt.begin(index) as u32;
                return Faulty { message: whole, room: few, number: bim::EVENT_ROOM, place };
            }
        }
        _ => {}
    }
    // What the item has of its own.
    let any = rng.word() as u8;
    match item.part {
        Part::Unit if rng.one_in(2) => refused(with(&[0xe0 | any & 0x10 | 0x0f]), bim::NO_SUCH_CODE),
        Part::Unit => refused(with(&[any & 0xf0 | rng.below(15) as u8]), bim::RESERVED_BITS),
        Part::Length => refused(with(&[0]), bim::NO_SUCH_CODE),
        Part::Flags => {
            let set = rng.within(1, 7) as u8 * 16 | any & 0x8f;
            refused(with(&[&[set], &item.bytes[1..]].concat()), bim::ADVANCED_FLAG)
        }
        Part::Schemas if rng.one_in(2) => refused(with(&[0]), bim::NO_SCHEMAS),
        Part::Schemas => refused(with(&eight(rng.within(5, 16_383) as u32)), bim::MANY_SCHEMAS),
        Part::Uri => refused(with(&[0]), bim::NO_SUCH_CODE),
        // A count that passes the end; the profile's place has no such thing.
        Part::Hint | Part::CodecUri | Part::Description => {
            let left = whole.len() - begin - (item.bytes.len() - text);
            let count = eight((left + 2 + rng.below(9)).min(16_383) as u32);
            match left + 2 < 16_000 {
                true => refused(with(&[&count[..], &item.bytes[item.bytes.len() - text..]].concat()), bim::PAST_END),
                false => refused(whole[..begin].to_vec(), bim::PAST_END),
            }
        }
        _ => refused(whole[..begin].to_vec(), bim::PAST_END),
    }
}
