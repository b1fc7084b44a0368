//! The comparison of the start-up message's C calls notices every one of these faults in a stand-in, and none in the peer itself.

#[macro_use]
mod common;

use peer::bim;
use peer::calls::{run_messages, MessageBench, MessageCalls, MessageJudge};
use peer::init;
use peer::words::{big_endian, words_of};
use std::hint::black_box;

faults! {
    // The page's "Ruled out", and its traps.
    /// Six flags, and 8 L - 6 bits stepped over.
    SixFlags,
    /// L for the count stepped over.
    LengthForCount,
    /// Codecs of a second schema are dropped by the writer.
    SecondCodecsDropped,
    /// The reader drops them.
    SecondCodecsUnread,
    /// The formats' count is a vluimsbf8.
    FormatsCountVlu8,
    /// UpdatesOnly without AdditionalSchema is read.
    UpdatesOnlyRead,
    /// InsertFlag is refused with 34.
    InsertRefused,
    /// Places of stretches are bits.
    StretchInBits,
    /// Places of refusals are bytes.
    PlaceInBytes,
    // Orders.
    /// 34 before 5 of the flags' bytes.
    FlagBeforeEnd,
    /// 14 for unit code 7 before 28.
    UnitBeforeReserved,
    /// 7 before 12 of a codec's URI.
    RoomBeforeShortest,
    /// 17 is not judged.
    LeftTaken,
    /// A URI of no bytes is read.
    EmptyUriRead,
    /// Unit code 7 is read.
    UnitSevenRead,
    /// Flags of no bytes are read as none.
    NoFlagBytesRead,
    /// A long form is read.
    LongForm,
    /// Five schemas are 29.
    FiveAreNone,
    /// Bytes of a URI that are missing are named where they should begin.
    BytesPlace,
    /// The first bit stepped over is told with the flags.
    StepIsFlag,
    /// It is not told.
    StepUntold,
    /// It is refused.
    StepRefused,
    /// It is written.
    StepWritten,
    /// Bits stepped over are those given.
    SteppedKept,
    /// A refusal leaves words of the codecs.
    CodecsLeft,
    /// A refusal leaves words beside the place.
    WordsLeft,
    /// Room behind the codecs keeps its bytes.
    RestLeft,
    /// `init` of 129 bytes is taken.
    LargerInit,
    /// Half a word of room is taken for a word.
    RoomRoundsUp,
    /// The empty hint's place is 0.
    EmptyHintAtZero,
    /// Word 7 counts the codecs.
    CountsCodecs,
    // The writer.
    /// A stretch is held to the count alone.
    StretchWraps,
    /// An empty stretch past the end is taken.
    EmptyPastEnd,
    /// 23 before 20 of a count.
    BytesBeforeCount,
    /// A type of 16,384 is written in its low bits.
    TypeWraps,
    /// 256 formats are written as 0.
    FormatsWrap,
    /// Formats without the flag are dropped.
    FormatsDropped,
    /// Words of codecs left over are dropped.
    WordsDropped,
    /// Missing words of codecs are named at the next word, without 32.
    MissingAtWord,
    /// A flag of 34 is 20.
    FlagOutside,
    /// 21 before 18 of words left over.
    RoomFirst,
    /// Words past the last schema are looked at.
    LooksPastSchemas,
    /// The place given is looked at.
    LooksAtPlace,
    /// An area of a wrong size keeps its bytes.
    AreaLeft,
    /// The bytes written are not told.
    BytesUntold,
    /// A byte behind the message changes.
    BehindMessage,
    /// The place is over 2^29 - 1 bytes.
    WallPassed,
}
use Fault::*;

struct StandIn(Fault);

impl StandIn {
    /// The words of `init` changed before they are written.
    fn told(
        &self,
        init: &[u8],
        codecs: &[u8],
        given: &[u8],
        message: &mut [u8],
        area: &mut [u8],
        change: impl Fn(&mut [u32]),
    ) -> u32 {
        let mut words = words_of(init);
        change(&mut words);
        init::write(&big_endian(&words), codecs, given, message, area)
    }
}

/// Puts a word into bytes.
fn put(bytes: &mut [u8], index: usize, word: u32) {
    bytes[4 * index..4 * index + 4].copy_from_slice(&word.to_be_bytes());
}

impl MessageCalls for StandIn {
    fn init_read(&self, message: &[u8], codecs: &mut [u8], init: &mut [u8]) -> u32 {
        let old = [codecs.to_vec(), init.to_vec()];
        if init.len() != bim::INIT {
            if self.0 == LargerInit && init.len() == bim::INIT + 1 {
                init[bim::INIT] = 0;
                return init::read(message, codecs, &mut init[..bim::INIT]);
            }
            let number = init::read(message, codecs, init);
            if self.0 == AreaLeft {
                init.copy_from_slice(&old[1]);
            }
            return number;
        }
        let number = init::read(message, codecs, init);
        let words = words_of(init);
        let place = words[0];
        let refuse = |codecs: &mut [u8], init: &mut [u8], number: u32, place: u32| {
            codecs.fill(0);
            init.fill(0);
            put(init, 0, place);
            number
        };
        // The message with its byte at this place changed is read in its stead.
        let as_if = |codecs: &mut [u8], init: &mut [u8], at: usize, byte: u8| {
            let mut other = message.to_vec();
            other[at] = byte;
            init::read(&other, codecs, init)
        };
        match (self.0, number) {
            (SixFlags, 0) if words[3] > 0 => {
                put(init, 3, words[3] + 1);
                put(init, 4, words[4] & !1);
            }
            (LengthForCount, 0) if words[3] > 0 => put(init, 3, (words[3] + 7) / 8),
            (SecondCodecsUnread, 0) if words[6] > 1 => put(init, 21, 0),
            (FormatsCountVlu8, 0) if words[9] > 127 => return refuse(codecs, init, bim::TOO_LARGE, 8 * (words[8] - 1)),
            (UpdatesOnlyRead, bim::ADVANCED_FLAG) if message[place as usize / 8] & 0x70 == 0x10 => {
                let at = place as usize / 8;
                return as_if(codecs, init, at, message[at] & 0x8f);
            }
            (InsertRefused, 0) if words[4] & 64 != 0 => return refuse(codecs, init, bim::ADVANCED_FLAG, 24),
            (StretchInBits, 0) => put(init, 12, 8 * words[12]),
            (PlaceInBytes, 1..) => put(init, 0, place / 8),
            (FlagBeforeEnd, bim::PAST_END) if place == 24 && message.get(1) == Some(&0x0f) => {
                if message.get(3).is_some_and(|flags| flags & 0x70 != 0) {
                    return refuse(codecs, init, bim::ADVANCED_FLAG, 24);
                }
            }
            (UnitBeforeReserved, bim::RESERVED_BITS) if message[place as usize / 8] >= 0xe0 => {
                return bim::NO_SUCH_CODE
            }
            (RoomBeforeShortest, bim::NOT_SHORTEST) if codecs.len() < 8 && place > 40 => return bim::EVENT_ROOM,
            (LeftTaken, bim::LEFT_OVER) => return init::read(&message[..place as usize / 8], codecs, init),
            (EmptyUriRead, bim::NO_SUCH_CODE) if message[place as usize / 8] == 0 && place > 16 => {
                let at = place as usize / 8;
                let other = [&message[..at], &[1, 0], &message[at + 1..]].concat();
                return init::read(&other, codecs, init);
            }
            (UnitSevenRead, bim::NO_SUCH_CODE) if message[place as usize / 8] >= 0xe0 => {
                let at = place as usize / 8;
                return as_if(codecs, init, at, message[at] & 0x1f);
            }
            (NoFlagBytesRead, bim::NO_SUCH_CODE) if place <= 24 && message[place as usize / 8 - 1] & 0x1f == 0x0f => {
                let at = place as usize / 8;
                let other = [&message[..at - 1], &[message[at - 1] | 0x10], &message[at + 1..]].concat();
                return init::read(&other, codecs, init);
            }
            (LongForm, bim::NOT_SHORTEST) => {
                let at = place as usize / 8;
                return init::read(&[&message[..at], &message[at + 1..]].concat(), codecs, init);
            }
            (FiveAreNone, bim::MANY_SCHEMAS) => return bim::NO_SCHEMAS,
            (BytesPlace, bim::PAST_END) if place > 40 && message.len() > place as usize / 8 + 1 => {
                put(init, 0, place.saturating_add(8))
            }
            (StepIsFlag, 0) => put(init, 4, words[4] | words[5]),
            (StepUntold, 0) => put(init, 5, 0),
            (StepRefused, 0) if words[5] == 1 => return refuse(codecs, init, bim::RESERVED_BITS, 24),
            (CodecsLeft, 1..) if !codecs.is_empty() => codecs[0] = 1,
            (WordsLeft, 1..) if place > 8 => put(init, 1, 1),
            (RestLeft, 0) => {
                let used = 4 * words[7] as usize;
                codecs[used..].copy_from_slice(&old[0][used..]);
            }
            (RoomRoundsUp, bim::EVENT_ROOM) if codecs.len() % 4 == 3 => {
                let mut longer = vec![0; codecs.len() + 1];
                let number = init::read(message, &mut longer, init);
                let room = codecs.len();
                codecs.copy_from_slice(&longer[..room]);
                return number;
            }
            (EmptyHintAtZero, 0) if words[15] == 0 => put(init, 14, 0),
            (CountsCodecs, 0) => put(init, 7, words[16]),
            (WallPassed, bim::PAST_END | bim::LEFT_OVER) if message.len() > bim::MOST_MESSAGE => {
                put(init, 0, 8_u32.wrapping_mul(message.len() as u32));
            }
            _ => {}
        }
        number
    }

    fn init_write(&self, init: &[u8], codecs: &[u8], given: &[u8], message: &mut [u8], area: &mut [u8]) -> u32 {
        let old = area.to_vec();
        let number = init::write(init, codecs, given, message, area);
        if self.0 == BehindMessage {
            let behind = black_box(message.as_mut_ptr().wrapping_add(message.len()));
            unsafe { behind.write_volatile(behind.read_volatile() ^ 1) }
        }
        if number == bim::AREA_SIZE {
            if self.0 == AreaLeft {
                area.copy_from_slice(&old);
            }
            return number;
        }
        if init.len() != bim::INIT {
            return number;
        }
        let (words, place) = (words_of(init), words_of(area)[0]);
        match (self.0, number) {
            (SecondCodecsDropped, 0) if words[6] > 1 && words[21] > 0 => {
                // The first schema's codecs alone are kept.
                let list = words_of(codecs);
                let mut used = 0;
                for _ in 0..words[16] {
                    used += 3 + list[used + 2] as usize;
                }
                return self.told(init, codecs, given, message, area, |words| {
                    words[7] = used as u32;
                    for schema in 1..4 {
                        words[16 + 5 * schema] = 0;
                    }
                });
            }
            (StepWritten, bim::OUTSIDE_ROW) if place == 5 && words[3] > 0 => {
                let number = self.told(init, codecs, given, message, area, |words| words[5] = 0);
                if number == 0 {
                    message[if words[1] < 128 { 3 } else { 4 }] |= 1;
                }
                return number;
            }
            (SteppedKept, 0) if words[3] > 1 && words[3] < 900 => message[if words[1] < 128 { 4 } else { 5 }] |= 1,
            (StretchWraps, bim::TEXT_BYTES) if words[11] as usize <= given.len() && place == 11 => {
                return self.told(init, codecs, given, message, area, |words| words[10] = 0);
            }
            (EmptyPastEnd, bim::TEXT_BYTES) if place == 11 && words[11] == 0 => {
                return self.told(init, codecs, given, message, area, |words| words[10] = 0);
            }
            (BytesBeforeCount, bim::OUTSIDE_ROW) if place == 13 && words[13] > 0 => return bim::TEXT_BYTES,
            (TypeWraps, bim::OUTSIDE_ROW) if place > 34 => {
                let mut list = words_of(codecs);
                list[place as usize - 32] &= 16_383;
                return init::write(init, &big_endian(&list), given, message, area);
            }
            (FormatsWrap, bim::OUTSIDE_ROW) if place == 9 && words[9] == 256 => {
                return self.told(init, codecs, given, message, area, |words| words[9] = 0);
            }
            (FormatsDropped, bim::OUTSIDE_ROW) if place == 9 && words[4] & 4 == 0 => {
                return self.told(init, codecs, given, message, area, |words| words[9] = 0);
            }
            (WordsDropped, bim::NO_READING) if place >= 32 && place < words[7].saturating_add(32) => {
                return self.told(init, codecs, given, message, area, |words| words[7] = place - 32);
            }
            (MissingAtWord, bim::NO_READING) if place == words[7].saturating_add(32) => put(area, 0, words[7]),
            (FlagOutside, bim::ADVANCED_FLAG) => return bim::OUTSIDE_ROW,
            (RoomFirst, bim::NO_READING)
                if place >= 32 && place < words[7].saturating_add(32) && message.len() < 30 =>
            {
                put(area, 0, 0);
                return bim::PAYLOAD_ROOM;
            }
            (LooksPastSchemas, 0) if words[6] < 4 && words[31] != 0 => {
                message.fill(0);
                area.fill(0);
                put(area, 0, 31);
                return bim::OUTSIDE_ROW;
            }
            (LooksAtPlace, 0) if words[0] != 0 => {
                message.fill(0);
                area.fill(0);
                return bim::OUTSIDE_ROW;
            }
            (BytesUntold, 0) => put(area, 1, 0),
            _ => {}
        }
        number
    }
}

#[test]
fn the_peer_itself_has_no_fault() {
    let mut bench = run_messages(&StandIn(None), 40_000, 1);
    bench.long_messages();
    assert!(bench.report());
}

#[test]
fn every_fault_is_noticed() {
    for &fault in FAULTS {
        let stand_in = StandIn(fault);
        let mut bench = run_messages(&stand_in, 40_000, 1);
        if fault == WallPassed {
            bench.long_messages();
        }
        assert!(bench.differing() > 0, "{fault:?} went unnoticed");
    }
}

#[test]
fn what_was_never_asked_is_told() {
    assert!(!MessageBench::new(&MessageJudge, 1).report());
}
