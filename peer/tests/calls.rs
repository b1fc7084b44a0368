//! The comparison of the C calls notices every one of these faults in a stand-in, and none in the peer itself.

#[macro_use]
mod common;

use peer::bim;
use peer::calls::{run, Calls, Reading, Setting, Writing};
use peer::codes::read5;
use peer::host;
use peer::model::{bits5, bits_of, bytes_of, groups};
use peer::padding::lengths_are_shortest;
use peer::rows::{held_word, Rows};
use peer::words::{big_endian, words_of};
use std::hint::black_box;

faults! {
    /// The area keeps a byte of what stood there.
    AreaByteLeft,
    /// A refused reading leaves its events.
    EventsLeft,
    /// Bytes past the last whole event stay.
    OddBytesLeft,
    /// Text bytes past those given stay.
    TextsLeft,
    /// An area of a wrong size leaves the texts.
    AreaRefusedTextsLeft,
    /// An area of 153 bytes is taken.
    LargerArea,
    /// A table's odd bytes are dropped.
    RaggedTable,
    /// A root name over 16 bits wraps.
    RootWraps,
    /// A byte before the events changes.
    BeforeEvents,
    /// A byte behind the texts changes.
    BehindTexts,
    /// The payload changes.
    InputTouched,
    /// The path keeps one name too many.
    PathLonger,
    /// A Blank is one bit short.
    BlankShort,
    /// Texts of a blanked element are kept.
    BlankTexts,
    /// Substitutes are counted from 0.
    SubstituteFrom0,
    /// Codes that say no have no event.
    CastLeftOut,
    /// A padded TheLength is refused.
    PaddedRefused,
    /// A Start has the bits of the shortest TheLength.
    StartShort,
    /// Content that ends too early is told at the first bit behind a shortest TheLength.
    ShortPlace,
    /// A control character is told as bytes that are no UTF-8.
    ControlIs16,
    /// Tabs and line ends are control characters.
    TabRefused,
    /// So is 127.
    DeleteRefused,
    /// No room for a text is told before its control character.
    RoomBeforeControl,
    /// What lies behind the payload is read.
    ReadsOn,
    /// A refused writing leaves a byte.
    PayloadByteLeft,
    /// The fourth word has to be right.
    FourthWord,
    /// A padded TheLength stays padded.
    PaddingKept,
    /// Control characters are written.
    ControlWritten,
    /// A payload of the last byte of room is refused.
    RoomOneShort,
    /// 19 where a Blank follows the root's End is 18.
    LateBlank,
    /// A list over 2,048 events has its place one off.
    LongListPlace,
    /// A type that is not derived is 18.
    NotDerived,
    /// The short call has type codes where the table has derivations.
    ShortCasts,
    /// The short call takes its mode from the first Start.
    ShortByFirstStart,
    /// The short call gives a length to every Start.
    ShortAddsLengths,
    /// Any held word but 0 is held by everybody.
    AnyMark,
    /// Party p's mark is bit 7 - p.
    MarksTurned,
    /// The party is taken modulo 8.
    PartyModulo8,
    /// 26 stands before 2.
    PartyBeforeRoot,
    /// 26 stands after 3.
    PartyAfterSize,
    /// 26 stands after 4.
    PartyAfterModeByte,
    /// 26 stands after 22.
    PartyAfterMode,
    /// 26 stands after 18 for a list that is not whole.
    PartyAfterShape,
    /// The writer asks party 0.
    WriterAsksParty0,
    /// So does the short call.
    ShortAsksParty0,
    /// The type that is cast to is judged by party 0, that of a row by the party that asks.
    CastsByParty0,
    /// Of a held word only the lowest byte is looked at.
    WideMarks,
    /// A setting stores 2^p or 0.
    SettingStores,
    /// A setting takes a mark's lowest bit.
    MarkLowestBit,
    /// A setting turns the mark over.
    MarkTurned,
    /// A refused setting clears the table.
    RefusedSettingClears,
    /// A setting with an area of another size clears the table.
    SizeRefusedClears,
    /// A setting clears the rest of the held word's bytes in the next type.
    NextTypeToo,
    /// A setting leaves a byte of the area.
    SettingAreaLeft,
    /// A setting judges the party before the type.
    SettingPartyFirst,
    /// A setting is told nothing of a wrong table whose marks are right.
    SettingTakesWrongTable,
}
use Fault::*;

struct StandIn(Fault);

fn first_of(kind: u32, events: &mut [u8]) -> Option<&mut [u8]> {
    events.chunks_exact_mut(16).find(|event| event[..4] == kind.to_be_bytes())
}

fn blank_in(events: &mut [u8]) -> Option<&mut [u8]> {
    first_of(bim::KIND_BLANK, events)
}

fn word(bytes: &[u8], index: usize) -> u32 {
    u32::from_be_bytes(bytes[4 * index..4 * index + 4].try_into().unwrap())
}

/// The last Start of a list whose TheLength is padded, and the bits of the shortest.
fn padded_start(mode: u32, events: &[u8]) -> Option<(usize, u32)> {
    let list: Vec<[u32; 4]> = words_of(events).as_chunks().0.to_vec();
    let end_of = |start: usize| {
        let mut open = 0;
        (start..list.len()).find(|&at| {
            open += i32::from(list[at][0] == bim::KIND_START) - i32::from(list[at][0] == bim::KIND_END);
            open == 0
        })
    };
    (0..list.len()).rev().filter(|&at| list[at][0] == bim::KIND_START).find_map(|start| {
        let element = &list[start..=end_of(start)?];
        let body = element[1..].iter().map(|event| u64::from(event[3])).sum();
        let shortest = u32::from(mode % bim::CASTING == bim::MODE_OPTIONAL) + 5 * groups(body) as u32;
        (!lengths_are_shortest(mode, element)).then_some((start, shortest))
    })
}

/// The mode's flag bits and the root's TheLength in a payload that has one: value and bits, where it is padded.
fn padded_root(payload: &[u8]) -> Option<(usize, u32, usize)> {
    let flag = usize::from(payload.first()? & 0xc0 == bim::MODE_OPTIONAL_BYTE & 0xc0);
    let length = read5(payload, 8 * payload.len(), 8 + flag).ok()?;
    (!length.shortest).then_some((flag, length.value, length.bits))
}

/// A right table with each held word as `change` has it, which is told the type; a wrong one as it is.
fn with_marks(table: &[u8], change: impl Fn(usize, u32) -> u32) -> Vec<u8> {
    let mut words = words_of(table);
    if host::check_table(table, &mut [0; bim::AREA]) != bim::ACCEPTED {
        return table.to_vec();
    }
    (0..words[1] as usize).for_each(|of_type| words[held_word(of_type)] = change(of_type, words[held_word(of_type)]));
    big_endian(&words)
}

/// The table as a fault of the marks has it for a party.
fn misread(fault: Fault, table: &[u8], party: u32) -> Vec<u8> {
    let own = 1_u32.checked_shl(party).unwrap_or(0) & bim::MOST_HELD;
    match fault {
        AnyMark => with_marks(table, |_, word| if word == 0 { 0 } else { bim::MOST_HELD }),
        MarksTurned => with_marks(table, |_, word| u32::from((word as u8).reverse_bits())),
        CastsByParty0 if host::check_table(table, &mut [0; bim::AREA]) == bim::ACCEPTED => {
            let casts = Rows::of(&words_of(table)).casts.unwrap_or_default();
            let by_party_0 = |of_type| {
                casts.entries.contains(&of_type) || casts.substitutes.iter().any(|substitute| substitute[1] == of_type)
            };
            with_marks(table, |of_type, word| match by_party_0(of_type as u32) {
                true => (word & !own) | if word & 1 == 1 { own } else { 0 },
                false => word,
            })
        }
        WideMarks if table.len() >= 20 => {
            let mut words = words_of(table);
            let types = (words[1] as usize).min(words.len() / 7);
            for of_type in 0..types {
                if let Some(word) = words.get_mut(held_word(of_type)) {
                    *word &= bim::MOST_HELD;
                }
            }
            [big_endian(&words), table[4 * words.len()..].to_vec()].concat()
        }
        _ => table.to_vec(),
    }
}

/// The number with 26 where a fault has it: the call answered `asked` with its party, and `as_0` as party 0.
fn misplaced(fault: Fault, party: u32, asked: u32, as_0: u32, events: &[u8]) -> u32 {
    let shape = !events.len().is_multiple_of(16) || events.len() / 16 > bim::MOST_EVENTS;
    match fault {
        PartyBeforeRoot if party >= bim::PARTIES && asked == bim::ROOT => bim::PARTY,
        PartyAfterSize if asked == bim::PARTY && as_0 == bim::PAYLOAD_SIZE => as_0,
        PartyAfterModeByte if asked == bim::PARTY && as_0 == bim::MODE_BYTE => as_0,
        PartyAfterMode if asked == bim::PARTY && as_0 == bim::WRITE_MODE => as_0,
        PartyAfterShape if asked == bim::PARTY && as_0 == bim::NO_READING && shape => as_0,
        _ => asked,
    }
}

/// Reads where a faulty library would. The bench lends every buffer between guards, so that the byte is there.
fn byte_at(place: *const u8) -> u8 {
    unsafe { black_box(place).read_volatile() }
}

/// Writes where a faulty library would.
fn flip(place: *mut u8) {
    let place = black_box(place);
    unsafe { place.write_volatile(place.read_volatile() ^ 1) }
}

impl Calls for StandIn {
    fn check_table(&self, table: &[u8], area: &mut [u8]) -> u32 {
        let table = if self.0 == RaggedTable { &table[..table.len() / 4 * 4] } else { table };
        if self.0 == LargerArea && area.len() == 153 {
            area[152] = 0;
            return host::check_table(table, &mut area[..152]);
        }
        let kept = area.get(151).copied();
        let number = host::check_table(table, area);
        match kept {
            Some(byte) if self.0 == AreaByteLeft && number == bim::TABLE => area[151] = byte,
            _ => {}
        }
        number
    }

    fn read(&self, lent: Reading<'_>) -> u32 {
        let Reading { table, mut party, root: (mut name, of_type), payload, events, texts, area } = lent;
        let table = &misread(self.0, table, party)[..];
        if self.0 == PartyModulo8 {
            party %= bim::PARTIES;
        }
        if self.0 == RootWraps {
            name &= 0xffff;
        }
        let (old_events, old_texts) = (events.to_vec(), texts.to_vec());
        let mut longer;
        let mut given = payload;
        if self.0 == ReadsOn && !payload.is_empty() {
            longer = payload.to_vec();
            longer.push(byte_at(payload.as_ptr().wrapping_add(payload.len())));
            given = &longer;
        }
        let asked = host::read(table, party, name, of_type, given, events, texts, area);
        let as_0 = match asked {
            bim::PARTY => host::read(table, 0, name, of_type, given, &mut [], &mut [], &mut [0; bim::AREA]),
            _ => asked,
        };
        let number = misplaced(self.0, party, asked, as_0, &[]);
        let whole = old_events.len() / 16 * 16;
        match self.0 {
            EventsLeft if number == bim::CONTENT_SHORT => events.copy_from_slice(&old_events),
            OddBytesLeft => events[whole..].copy_from_slice(&old_events[whole..]),
            TextsLeft if number == bim::ACCEPTED => {
                let used = u32::from_be_bytes(area[12..16].try_into().unwrap()) as usize;
                texts[used..].copy_from_slice(&old_texts[used..]);
            }
            AreaRefusedTextsLeft if number == bim::AREA_SIZE => texts.copy_from_slice(&old_texts),
            BeforeEvents => flip(events.as_mut_ptr().wrapping_sub(1)),
            BehindTexts => flip(texts.as_mut_ptr().wrapping_add(texts.len())),
            InputTouched if !payload.is_empty() => flip(payload.as_ptr().cast_mut()),
            PathLonger if number == bim::LEFT_OVER => area[23] += 1,
            PaddedRefused if number == bim::ACCEPTED && padded_start(word(area, 1), events).is_some() => {
                events.fill(0);
                texts.fill(0);
                area.fill(0);
                area[3] = 8;
                return bim::NOT_SHORTEST;
            }
            StartShort if number == bim::ACCEPTED => {
                if let Some((start, bits)) = padded_start(word(area, 1), events) {
                    events[16 * start + 12..16 * start + 16].copy_from_slice(&bits.to_be_bytes());
                }
            }
            ControlIs16 if number == bim::CONTROL => return bim::NOT_UTF8,
            RoomBeforeControl if number == bim::CONTROL && texts.is_empty() => return bim::TEXT_ROOM,
            TabRefused | DeleteRefused if number == bim::ACCEPTED => {
                let refused: &[u8] = if self.0 == TabRefused { &[9, 10, 13] } else { &[127] };
                if texts[..word(area, 3) as usize].iter().any(|byte| refused.contains(byte)) {
                    events.fill(0);
                    texts.fill(0);
                    area.fill(0);
                    return bim::CONTROL;
                }
            }
            ShortPlace if number == bim::CONTENT_SHORT && word(area, 5) == 1 => {
                if let Some((flag, value, _)) = padded_root(payload) {
                    let place = (8 + flag + 5 * groups(value.into())) as u32;
                    area[..4].copy_from_slice(&place.to_be_bytes());
                }
            }
            BlankShort => {
                if let Some(blank) = blank_in(events) {
                    blank[15] = blank[15].wrapping_sub(1);
                }
            }
            SubstituteFrom0 => {
                if let Some(cast) = first_of(bim::KIND_CAST, events) {
                    cast[11] = cast[11].saturating_sub(1);
                }
            }
            CastLeftOut => {
                let cast = events.chunks_exact(16).position(|event| event[..4] == bim::KIND_CAST.to_be_bytes());
                if let Some(at) = cast.filter(|&at| events[16 * at + 11] == 0) {
                    events.copy_within(16 * at + 16.., 16 * at);
                }
            }
            BlankTexts if number == bim::ACCEPTED && blank_in(events).is_some() => {
                let used = u32::from_be_bytes(area[12..16].try_into().unwrap()) as usize;
                if let Some(byte) = texts.get_mut(used) {
                    *byte = b'a';
                    area[15] = area[15].wrapping_add(1);
                }
            }
            _ => {}
        }
        number
    }

    fn write(&self, mode: u32, lent: Writing<'_>) -> u32 {
        let Writing { table, party, root: (name, of_type), events, texts, payload, area } = lent;
        let table = &misread(self.0, table, party)[..];
        let party = match self.0 {
            PartyModulo8 => party % bim::PARTIES,
            WriterAsksParty0 if party < bim::PARTIES => 0,
            _ => party,
        };
        if self.0 == RoomOneShort {
            let most = payload.len().saturating_sub(1);
            payload[most..].fill(0);
            return host::write(table, party, name, of_type, mode, events, texts, &mut payload[..most], area);
        }
        let mut letters = texts.to_vec();
        if self.0 == ControlWritten {
            letters.iter_mut().filter(|byte| **byte < 32).for_each(|byte| *byte = b'a');
        }
        let asked = host::write(table, party, name, of_type, mode, events, &letters, payload, area);
        let as_0 = match asked {
            bim::PARTY => host::write(table, 0, name, of_type, mode, events, &letters, &mut [], &mut [0; bim::AREA]),
            _ => asked,
        };
        let mut number = misplaced(self.0, party, asked, as_0, events);
        match self.0 {
            PayloadByteLeft if number == bim::TEXT_BYTES && !payload.is_empty() => payload[0] = 0x0f,
            FourthWord if number == bim::ACCEPTED && events.chunks_exact(16).any(|event| event[12] != 0) => {
                number = bim::NO_READING;
                payload.fill(0);
                area.fill(0);
            }
            PaddingKept if number == bim::ACCEPTED && word(events, 2) == 1 && area.len() == bim::AREA => {
                let bits: Vec<_> = payload.iter().flat_map(|&byte| bits_of(byte.into(), 8)).collect();
                let flag = usize::from(mode % bim::CASTING == bim::MODE_OPTIONAL);
                let length = read5(payload, bits.len(), 8 + flag).unwrap();
                let asked = (word(events, 3) as usize).saturating_sub(flag);
                let used = word(area, 4) as usize;
                let kept = used - length.bits + asked;
                if asked % 5 == 0 && (length.bits + 1..=40).contains(&asked) && kept <= bits.len() {
                    let head = bits5(length.value.into(), asked / 5);
                    let all = [&bits[..8 + flag], &head, &bits[8 + flag + length.bits..used]].concat();
                    let bytes = bytes_of(&all);
                    payload[..bytes.len()].copy_from_slice(&bytes);
                    area[16..20].copy_from_slice(&(kept as u32).to_be_bytes());
                }
            }
            LateBlank if number == bim::BLANK && area[..4] == ((events.len() / 16 - 1) as u32).to_be_bytes() => {
                number = bim::NO_READING
            }
            NotDerived if number == bim::OUTSIDE_ROW => {
                let at = 16 * u32::from_be_bytes(area[..4].try_into().unwrap()) as usize;
                if events[at..at + 4] == bim::KIND_CAST.to_be_bytes() {
                    number = bim::NO_READING;
                }
            }
            LongListPlace if number == bim::NO_READING && events.len() / 16 > bim::MOST_EVENTS => {
                area[3] = area[3].wrapping_add(1)
            }
            _ => {}
        }
        number
    }

    fn write_lengths(&self, lent: Writing<'_>) -> u32 {
        let Writing { table, party, root: (name, of_type), events, texts, payload, area } = lent;
        let table = &misread(self.0, table, party)[..];
        let party = if self.0 == ShortAsksParty0 && party < bim::PARTIES { 0 } else { party };
        let mut given = events.to_vec();
        let start = first_of(bim::KIND_START, &mut given).map(|event| event[11]);
        let mut write =
            |mode, events: &[u8]| host::write(table, party, name, of_type, mode, events, texts, payload, area);
        match self.0 {
            ShortCasts => {
                let number = write(bim::CASTING + bim::MODE_ALWAYS, events);
                if number == bim::WRITE_MODE {
                    return write(bim::MODE_ALWAYS, events);
                }
                number
            }
            ShortByFirstStart if start == Some(0) => write(bim::MODE_NEVER, events),
            ShortAddsLengths => {
                let starts = given.chunks_exact_mut(16).filter(|event| event[..4] == bim::KIND_START.to_be_bytes());
                starts.for_each(|event| event[11] = 1);
                write(bim::MODE_ALWAYS, &given)
            }
            _ => host::write_lengths(table, party, name, of_type, events, texts, payload, area),
        }
    }

    fn set_held(&self, lent: Setting<'_>) -> u32 {
        let Setting { table, mut party, of_type, mut mark, area } = lent;
        let before = table.to_vec();
        let byte = 4 * held_word((of_type as usize).min(bim::MOST_TYPES)) + 3;
        match self.0 {
            PartyModulo8 => party %= bim::PARTIES,
            MarkLowestBit => mark &= 1,
            MarkTurned if party < bim::PARTIES => {
                mark = before.get(byte).map_or(mark, |byte| u32::from(byte >> party & 1 == 0));
            }
            _ => {}
        }
        let left = area.get(77).copied();
        let number = host::set_held(table, party, of_type, mark, area);
        match (self.0, number) {
            (SettingStores, bim::ACCEPTED) => table[byte] = if mark == 0 { 0 } else { 1 << party },
            (RefusedSettingClears, bim::TABLE | bim::ROOT | bim::PARTY) => table.fill(0),
            (SizeRefusedClears, bim::AREA_SIZE) => table.fill(0),
            (NextTypeToo, bim::ACCEPTED) if u32::from(before[7]) > of_type + 1 => table[byte + 28] &= 0x7f,
            (SettingAreaLeft, bim::ACCEPTED) => area[77] = left.unwrap_or(0),
            (SettingPartyFirst, bim::ROOT) if party >= bim::PARTIES => return bim::PARTY,
            (SettingTakesWrongTable, bim::TABLE) if party < bim::PARTIES && byte < before.len() && area[3] > 60 => {
                table[byte] |= 1 << party;
                area.fill(0);
                return bim::ACCEPTED;
            }
            _ => {}
        }
        number
    }
}

#[test]
fn the_peer_itself_has_no_fault() {
    assert!(run(&StandIn(None), 10_000, 1).report());
}

#[test]
fn every_fault_is_noticed() {
    for &fault in FAULTS {
        assert!(run(&StandIn(fault), 2_500, 1).differing() > 0, "{fault:?}");
    }
}
