//! The comparison of the C calls for shelves notices every one of these faults in a stand-in, and none in the stand-in without a fault.

#[macro_use]
mod common;

use peer::bim;
use peer::calls::{run_shelves, ShelfCalls};
use std::hint::black_box;

faults! {
    /// The writer's `first` is that of the last record that begins in a block.
    FirstOfLast,
    /// The writer's `first` is 0 where a block has no start.
    FirstZero,
    /// A record that ends with a block makes the next begin at that block's end.
    FirstAtEnd,
    /// An in-range `first` is taken without comparing it.
    FirstNotCompared,
    /// A sum stops at the greatest word.
    SumStops,
    /// A sum adds its carry again.
    SumCarries,
    /// A sum leaves out the header.
    SumWithoutHeader,
    /// A sum leaves out the last word, with the zero pair.
    SumShort,
    /// Of a length in two blocks the second byte is taken for 0.
    LengthInTwo,
    /// A payload of 8,192 bytes is refused.
    MostRefused,
    /// One of 8,193 is taken.
    OverMostTaken,
    /// An empty payload is refused.
    EmptyRefused,
    /// A length over 8,192 is named at the block of its first byte.
    PlaceOfFirstByte,
    /// A stream that ends in a record is named at the block in which that record begins.
    PlaceOfRecord,
    /// A part block at the end is left alone.
    PartBlockTaken,
    /// A part block is 31.
    PartBlockIs31,
    /// Before a part block, the last whole one may not be short.
    ShortBeforePart,
    /// A short block is taken anywhere.
    ShortTaken,
    /// Bytes past the used ones are not looked at.
    ZerosNotLookedAt,
    /// The zero pair is not looked at.
    PairNotLookedAt,
    /// Numbers are not looked at.
    NumbersNotLookedAt,
    /// 32 stands before 31.
    TurnBeforeCheck,
    /// 33 stands before 32.
    LayoutBeforeTurn,
    /// Room is judged before the last block's layout.
    RoomFirst,
    /// The writer judges room first.
    WriterRoomFirst,
    /// A file that ends in a record is taken.
    CutOffTaken,
    /// Used 0 is taken.
    UsedZeroTaken,
    /// A record that runs on over more than 16 block ends is refused.
    SeventeenRefused,
    /// A refused reading leaves its records.
    RecordsLeft,
    /// Bytes past the records stay.
    PastLeft,
    /// The area keeps its last bytes on a refusal.
    AreaLeft,
    /// An area of 45 bytes is taken.
    LargerArea,
    /// An area of another size leaves the output as it was.
    SizeLeaves,
    /// The bytes of the file are counted as those of its data.
    CountsData,
    /// A byte behind the output changes.
    Behind,
    /// What is given changes.
    Given,
    /// A salvage joins the pieces of a record around a bad block.
    Joins,
    /// Reading takes up at offset 0 of the block after a bad one.
    TakesUpAt0,
    /// What stood before the fault in a bad block is kept.
    KeepsBeforeFault,
    /// Blocks n and n + 1 around a bad one are one stretch.
    NumbersJoin,
    /// The first block's number has to be its index.
    FirstNumber0,
    /// So has that of a block after a bad one.
    NumberAfterBad,
    /// Reading takes up in the block right after damage, or not at all before the next damage.
    TakesUpAtOnce,
    /// Number 0 follows 2^32 - 1.
    NumbersWrap,
    /// After damage, number 0 may have any `first`.
    ZeroAnywhere,
    /// A lost block without a start is bad where it is the last.
    LostLastBad,
    /// Whole records of a cut-off file's last block are kept.
    CutOffKept,
    /// A bad block's entry tells what it says is used.
    BadHasBytes,
    /// Good blocks have no entries.
    GoodNotListed,
    /// Every block has an entry.
    AllListed,
    /// The part block has no entry.
    PartNotListed,
    /// What the running record loses is put on the last block of it.
    LossOnNeighbour,
    /// Good blocks that lose bytes are named by why the next is bad.
    ReasonOfNext,
    /// The sum of dropped bytes counts bad blocks whole.
    DroppedWhole,
    /// On 21 the list is left.
    ListLeft,
    /// Room for the list is not judged, where the new file has room.
    ListCutShort,
    /// A new file keeps the old numbers.
    NumbersKept,
}
use Fault::*;

struct StandIn(Fault);

/// How reading stands: the used bytes of good blocks, the first record that is not known to its end, the number before.
#[derive(Default)]
struct Reading {
    used: Vec<u8>,
    next: Option<usize>,
    /// Where the record begins that was read last.
    begun: usize,
    /// Whole records: from where to where.
    kept: Vec<(usize, usize)>,
    before: Option<u32>,
    after_bad: bool,
}

/// What a block can be asked.
struct Asked<'a> {
    bytes: &'a [u8],
    index: usize,
    last: bool,
    follows: usize,
    salvage: bool,
}

fn half(bytes: &[u8], at: usize) -> usize {
    usize::from(bytes[at]) << 8 | usize::from(bytes[at + 1])
}

fn word(bytes: &[u8], at: usize) -> u32 {
    (half(bytes, at) as u32) << 16 | half(bytes, at + 2) as u32
}

impl StandIn {
    fn has(&self, fault: Fault) -> bool {
        self.0 == fault
    }

    fn sum(&self, block: &[u8]) -> u32 {
        let from = if self.has(SumWithoutHeader) { 8 } else { 0 };
        let to = if self.has(SumShort) { 504 } else { 508 };
        (from..to).step_by(4).map(|at| word(block, at)).fold(0, |sum, word| match self.0 {
            SumStops => sum.saturating_add(word),
            SumCarries => {
                let (sum, carry) = sum.overflowing_add(word);
                sum.wrapping_add(u32::from(carry))
            }
            _ => sum.wrapping_add(word),
        })
    }

    /// The length of a record, where both of its bytes are there; an error where there is none such.
    fn length(&self, stream: &[u8], at: usize) -> Result<Option<usize>, ()> {
        if at + 2 > stream.len() {
            return Ok(Option::None);
        }
        let mut length = half(stream, at);
        if self.has(LengthInTwo) && at % 498 == 497 {
            length &= 0xff00;
        }
        let most = match self.0 {
            MostRefused => 8191,
            OverMostTaken => 8193,
            _ => 8192,
        };
        let refused = length > most || self.has(EmptyRefused) && length == 0;
        match refused || self.has(SeventeenRefused) && (at % 498 + 5 + length) / 498 > 16 {
            true => Err(()),
            false => Ok(Some(length)),
        }
    }

    fn file(&self, stream: &[u8], starts: &[usize], numbers: &[u32]) -> Vec<u8> {
        let mut file = vec![];
        for (index, data) in stream.chunks(498).enumerate() {
            let (from, to) = (498 * index, 498 * index + data.len());
            let mut here = starts.iter().filter(|&&start| (from..to).contains(&start)).map(|start| start - from);
            let first = if self.has(FirstOfLast) { here.next_back() } else { here.next() };
            let none = match self.0 {
                FirstZero => 0,
                FirstAtEnd if starts.contains(&to) => data.len(),
                _ => 65_535,
            };
            let number = numbers.get(index).copied().unwrap_or(index as u32);
            let mut block = [&number.to_be_bytes()[..], &(data.len() as u16).to_be_bytes()].concat();
            block.extend((first.unwrap_or(none) as u16).to_be_bytes());
            block.extend(data);
            block.resize(508, 0);
            block.extend(self.sum(&block).to_be_bytes());
            file.extend(block);
        }
        file
    }

    fn starts(&self, stream: &[u8]) -> Result<Vec<usize>, u32> {
        let (mut starts, mut at) = (vec![], 0);
        while at < stream.len() {
            let by = if self.has(PlaceOfFirstByte) { 0 } else { 1 };
            let length = self.length(stream, at).map_err(|()| ((at + by) / 498) as u32)?;
            let end = length.map_or(usize::MAX, |length| at + 6 + length);
            if end > stream.len() {
                return Err((if self.has(PlaceOfRecord) { at } else { stream.len() - 1 } / 498) as u32);
            }
            starts.push(at);
            at = end;
        }
        Ok(starts)
    }

    /// Judges a block, and reads on.
    fn judge(&self, reading: &mut Reading, asked: &Asked<'_>) -> Result<(), u32> {
        let Asked { bytes, index, last, follows, salvage } = *asked;
        if bytes.len() < 512 {
            return Err(if self.has(PartBlockIs31) { 31 } else { 33 });
        }
        let (number, used, first) = (word(bytes, 0), half(bytes, 4), half(bytes, 6));
        let due = match (salvage, reading.before) {
            (false, _) => Some(index as u32),
            (true, Some(before)) if self.has(NumbersWrap) => Some(before.wrapping_add(1)),
            (true, Some(before)) => Some(before.checked_add(1).unwrap_or(number.wrapping_add(1))),
            (true, Option::None) if self.has(FirstNumber0) && index == 0 => Some(0),
            (true, Option::None) if self.has(NumberAfterBad) && index > 0 => Some(index as u32),
            (true, Option::None) => Option::None,
        };
        let checked = || if self.sum(bytes) == word(bytes, 508) { Ok(()) } else { Err(31_u32) };
        let in_turn = || match due {
            Some(due) if due != number && !self.has(NumbersNotLookedAt) => Err(32),
            _ => Ok(()),
        };
        let short_is_fine = (last || self.has(ShortTaken)) && !(self.has(ShortBeforePart) && follows > 0);
        let zeros_end = if self.has(PairNotLookedAt) { 506 } else { 508 };
        let alone = || {
            let used_is_right = used == 498 || used < 498 && (used > 0 || self.has(UsedZeroTaken)) && short_is_fine;
            let free = number == 0 && self.has(ZeroAnywhere) && reading.after_bad;
            let first_is_right = match number {
                0 if !free => first == 0,
                _ => first < used || first == 65_535,
            };
            let zeros =
                self.has(ZerosNotLookedAt) || used > 498 || bytes[8 + used..zeros_end].iter().all(|&byte| byte == 0);
            if used_is_right && first_is_right && zeros {
                Ok(())
            } else {
                Err(33)
            }
        };
        match self.0 {
            TurnBeforeCheck => in_turn().and_then(|()| checked()).and_then(|()| alone())?,
            LayoutBeforeTurn => checked().and_then(|()| alone()).and_then(|()| in_turn())?,
            _ => checked().and_then(|()| in_turn()).and_then(|()| alone())?,
        }
        let base = reading.used.len();
        reading.used.extend(&bytes[8..8 + used]);
        let at_once = self.has(TakesUpAtOnce) && reading.before.is_some();
        let lost = reading.next.is_none();
        if lost && first != 65_535 && !at_once {
            reading.next = Some(base + if self.has(TakesUpAt0) && reading.after_bad { 0 } else { first });
        }
        let ends = used < 498 || follows == 0;
        let Some(mut next) = reading.next else {
            reading.before = Some(number);
            return if self.has(LostLastBad) && ends { Err(33) } else { Ok(()) };
        };
        let (mut begins, mut records) = (Option::None, vec![]);
        let mut begun = reading.begun;
        while next < reading.used.len() {
            if next >= base && begins.is_none() {
                begins = Some(next - base);
            }
            match self.length(&reading.used, next) {
                Err(()) => {
                    if self.has(KeepsBeforeFault) {
                        reading.kept.extend(records);
                    }
                    return Err(33);
                }
                Ok(Option::None) => break,
                Ok(Some(length)) => {
                    begun = next;
                    next += 6 + length;
                    if next <= reading.used.len() {
                        records.push((begun, next));
                    }
                }
            }
        }
        // The record that ran over into this block and ends in it.
        if reading.next.is_some_and(|next| next > base && next <= reading.used.len() && !lost) && reading.begun < base {
            records.insert(0, (reading.begun, reading.next.unwrap_or(0)));
        }
        let compared = !self.has(FirstNotCompared) && !(self.has(TakesUpAt0) && lost);
        if compared && begins.unwrap_or(65_535) != first {
            return Err(33);
        }
        if ends && next != reading.used.len() {
            if self.has(CutOffKept) || self.has(KeepsBeforeFault) {
                reading.kept.extend(records);
                return Err(33);
            }
            if !self.has(CutOffTaken) {
                return Err(33);
            }
        }
        reading.kept.extend(records);
        (reading.next, reading.begun, reading.before) = (Some(next), begun, Some(number));
        Ok(())
    }

    /// Reads all blocks; for a salvage what is bad of them, with the span of used bytes of each.
    fn blocks(
        &self,
        file: &[u8],
        salvage: bool,
        mut judged: impl FnMut(usize, u32, std::ops::Range<usize>) -> bool,
    ) -> Reading {
        let mut reading = Reading::default();
        for (index, bytes) in file.chunks(512).enumerate() {
            let follows = file.len().saturating_sub(512 * (index + 1));
            if self.has(PartBlockTaken) && bytes.len() < 512 {
                break;
            }
            let base = reading.used.len();
            let before = (reading.next, reading.begun, reading.before);
            let asked = Asked { bytes, index, last: follows < 512, follows, salvage };
            let reason = self.judge(&mut reading, &asked).err().unwrap_or(0);
            if reason != 0 {
                let kept_of_it = matches!(self.0, KeepsBeforeFault | CutOffKept);
                if !kept_of_it {
                    reading.used.truncate(base);
                }
                (reading.next, reading.before) = (Option::None, Option::None);
                match self.0 {
                    Joins if reason == 31 => (reading.next, reading.begun) = (before.0, before.1),
                    NumbersJoin if reason == 31 => {
                        let follows = file.get(512 * (index + 1)..512 * (index + 2)).map(|block| word(block, 0));
                        if follows.is_some() && follows == before.2.map(|number| number.wrapping_add(1)) {
                            (reading.next, reading.begun, reading.before) = before;
                        }
                    }
                    _ => {}
                }
            }
            reading.after_bad = reason != 0;
            let end = if reason == 0 { reading.used.len() } else { base };
            if !judged(index, reason, base..end) {
                break;
            }
        }
        reading
    }

    /// What follows every answer: output, area, and the faults that they have.
    fn answer(
        &self,
        result: Result<[u64; 5], (u32, u32)>,
        outputs: &mut [&mut [u8]],
        made: &[Vec<u8>],
        area: &mut [u8],
    ) -> u32 {
        let old = area.to_vec();
        for (index, output) in outputs.iter_mut().enumerate() {
            let bytes: &[u8] = match result {
                Ok(_) => &made[index],
                Err((21, _)) if self.has(ListLeft) && index == 1 && made.len() > 1 => &made[1],
                Err((33, _)) if self.has(RecordsLeft) && !made.is_empty() => &made[0],
                Err(_) => &[],
            };
            let length = bytes.len().min(output.len());
            output[..length].copy_from_slice(&bytes[..length]);
            if !(self.has(PastLeft) && result.is_ok()) {
                output[length..].fill(0);
            }
            if self.has(Behind) {
                let behind = black_box(output.as_mut_ptr().wrapping_add(output.len()));
                unsafe { behind.write_volatile(behind.read_volatile() ^ 1) }
            }
        }
        area.fill(0);
        match result {
            Ok(counts) => {
                for (bytes, count) in area[4..].chunks_exact_mut(8).zip(counts) {
                    bytes.copy_from_slice(&count.to_be_bytes());
                }
                0
            }
            Err((number, place)) => {
                area[..4].copy_from_slice(&place.to_be_bytes());
                if self.has(AreaLeft) {
                    area[40..].copy_from_slice(&old[40..44]);
                }
                number
            }
        }
    }

    /// 24, where the area has another size.
    fn size(&self, outputs: &mut [&mut [u8]], area: &mut [u8]) -> bool {
        if area.len() == 44 || self.has(LargerArea) && area.len() == 45 {
            return false;
        }
        area.fill(0);
        if !self.has(SizeLeaves) {
            outputs.iter_mut().for_each(|output| output.fill(0));
        }
        true
    }
}

impl ShelfCalls for StandIn {
    fn shelf_write(&self, records: &[u8], file: &mut [u8], area: &mut [u8]) -> u32 {
        if self.size(&mut [&mut *file], area) {
            return bim::AREA_SIZE;
        }
        let area = &mut area[..44];
        let room = records.len().div_ceil(498) * 512;
        if self.has(WriterRoomFirst) && room > file.len() {
            return self.answer(Err((21, 0)), &mut [file], &[], area);
        }
        if self.has(Given) && !records.is_empty() {
            let given = black_box(records.as_ptr().cast_mut());
            unsafe { given.write_volatile(given.read_volatile() ^ 1) }
        }
        let (result, made) = match self.starts(records) {
            Err(place) => (Err((33, place)), vec![]),
            Ok(_) if room > file.len() => (Err((21, 0)), vec![]),
            Ok(starts) => {
                let made = self.file(records, &starts, &[]);
                (Ok([starts.len() as u64, records.len() as u64, made.len() as u64, 0, 0]), made)
            }
        };
        self.answer(result, &mut [file], &[made], area)
    }

    fn shelf_read(&self, file: &[u8], records: &mut [u8], area: &mut [u8]) -> u32 {
        if self.size(&mut [&mut *records], area) {
            return bim::AREA_SIZE;
        }
        let mut refused = Option::None;
        let reading = self.blocks(file, false, |index, reason, _| {
            refused = (reason != 0).then_some((reason, index as u32));
            refused.is_none()
        });
        let used = reading.used;
        let whole = used.len() <= records.len();
        let file_bytes = if self.has(CountsData) { used.len() } else { file.len() };
        let result = match refused {
            Some((33, _)) if self.has(RoomFirst) && !whole => Err((21, 0)),
            Some(refused) => Err(refused),
            Option::None if !whole => Err((21, 0)),
            Option::None => Ok([reading.kept.len() as u64, used.len() as u64, file_bytes as u64, 0, 0]),
        };
        self.answer(result, &mut [records], &[used], &mut area[..44])
    }

    fn shelf_salvage(&self, file: &[u8], fresh: &mut [u8], dropped: &mut [u8], area: &mut [u8]) -> u32 {
        if self.size(&mut [&mut *fresh, &mut *dropped], area) {
            return bim::AREA_SIZE;
        }
        let mut blocks = vec![];
        let reading = self.blocks(file, true, |index, reason, used| {
            blocks.push((index, reason, used));
            true
        });
        let mut held = vec![false; reading.used.len()];
        let (mut stream, mut starts) = (vec![], vec![]);
        for &(from, to) in &reading.kept {
            held[from..to].fill(true);
            starts.push(stream.len());
            stream.extend(&reading.used[from..to]);
        }
        let numbers: Vec<_> =
            if self.has(NumbersKept) { file.chunks_exact(512).map(|block| word(block, 0)).collect() } else { vec![] };
        let made = self.file(&stream, &starts, &numbers);
        let mut entries: Vec<[u32; 3]> = vec![];
        for (at, (index, reason, used)) in blocks.iter().enumerate() {
            let mut bytes = held[used.clone()].iter().filter(|held| !**held).count() as u32;
            let block = &file[512 * index..file.len().min(512 * index + 512)];
            if self.has(BadHasBytes) && *reason != 0 && block.len() == 512 {
                bytes = half(block, 4) as u32;
            }
            if self.has(LossOnNeighbour) && *reason == 0 && bytes > 0 {
                if let Some(entry) = entries.last_mut().filter(|entry| entry[1] == 0 && entry[0] as usize + 1 == *index)
                {
                    entry[2] += bytes;
                    continue;
                }
            }
            let reason = match (self.0, blocks.get(at + 1)) {
                (ReasonOfNext, Some(next)) if bytes > 0 => next.1,
                _ => *reason,
            };
            let hidden = self.has(GoodNotListed) && reason == 0 || self.has(PartNotListed) && block.len() < 512;
            if (reason != 0 || bytes > 0 || self.has(AllListed)) && !hidden {
                entries.push([*index as u32, reason, bytes]);
            }
        }
        let list: Vec<u8> = entries.concat().iter().flat_map(|word| word.to_be_bytes()).collect();
        let whole = entries.iter().filter(|entry| self.has(DroppedWhole) && entry[1] != 0).count() as u64 * 498;
        let sum = entries.iter().map(|entry| u64::from(entry[2])).sum::<u64>() + whole;
        let fits = made.len() <= fresh.len() && (list.len() <= dropped.len() || self.has(ListCutShort));
        let counts = [starts.len() as u64, stream.len() as u64, made.len() as u64, entries.len() as u64, sum];
        let result = if fits { Ok(counts) } else { Err((21, 0)) };
        self.answer(result, &mut [fresh, dropped], &[made, list], &mut area[..44])
    }
}

#[test]
fn the_stand_in_without_a_fault_has_none() {
    assert!(run_shelves(&StandIn(None), 30_000, 1).report(false));
}

#[test]
fn every_fault_is_noticed() {
    for &fault in FAULTS {
        // Most are seen in the named cases already.
        let noticed = [0, 300, 3000].iter().any(|&rounds| run_shelves(&StandIn(fault), rounds, 1).differing() > 0);
        assert!(noticed, "{fault:?} went unnoticed");
    }
}

/// The rounds alone notice them too, without the named cases, but for what one file in thousands shows.
#[test]
fn the_page_s_wrong_programs_are_noticed_by_seeded_rounds() {
    let ruled_out =
        [FirstOfLast, FirstNotCompared, SumStops, SumCarries, Joins, TakesUpAt0, KeepsBeforeFault, NumbersJoin];
    for fault in ruled_out {
        let few = run_shelves(&StandIn(fault), 0, 1).differing();
        assert!(run_shelves(&StandIn(fault), 3000, 1).differing() > few, "{fault:?} went unnoticed");
    }
}
