//! The C calls for shelves against the judge in `shelf`, byte for byte: the named cases, then seeded streams and damaged files, in buffers of junk
//! between guards, in rooms around what is needed; and the theorems of requests 12 and 13 of what they answer.

use super::bench::Lent;
use super::case::Left;
use crate::bim;
use crate::rng::Rng;
use crate::shelf;
use crate::shelf::damage::{any_file, any_stream, damage as damage_file, odd_stream, Damage};
use crate::shelf::file::mend;
use crate::shelf::laws::{self, Call, Met, Said};
use crate::tally::{Numbers, Tally};
use crate::words::hex;
use std::hint::black_box;

/// The C calls for shelves, with their buffers as slices.
pub trait ShelfCalls {
    /// `bim_shelf_write`.
    fn shelf_write(&self, records: &[u8], file: &mut [u8], area: &mut [u8]) -> u32;
    /// `bim_shelf_read`.
    fn shelf_read(&self, file: &[u8], records: &mut [u8], area: &mut [u8]) -> u32;
    /// `bim_shelf_salvage`.
    fn shelf_salvage(&self, file: &[u8], fresh: &mut [u8], dropped: &mut [u8], area: &mut [u8]) -> u32;
}

/// The judge's own calls.
pub struct ShelfJudge;

impl ShelfCalls for ShelfJudge {
    fn shelf_write(&self, records: &[u8], file: &mut [u8], area: &mut [u8]) -> u32 {
        shelf::write(records, file, area)
    }

    fn shelf_read(&self, file: &[u8], records: &mut [u8], area: &mut [u8]) -> u32 {
        shelf::read(file, records, area)
    }

    fn shelf_salvage(&self, file: &[u8], fresh: &mut [u8], dropped: &mut [u8], area: &mut [u8]) -> u32 {
        shelf::salvage(file, fresh, dropped, area)
    }
}

/// What each call can answer.
const NUMBERS: [Numbers; 3] = [
    ("bim_shelf_write", &[bim::ACCEPTED, bim::PAYLOAD_ROOM, bim::AREA_SIZE, bim::BLOCK_LAYOUT]),
    (
        "bim_shelf_read",
        &[bim::ACCEPTED, bim::PAYLOAD_ROOM, bim::AREA_SIZE, bim::BLOCK_CHECK, bim::BLOCK_TURN, bim::BLOCK_LAYOUT],
    ),
    ("bim_shelf_salvage", &[bim::ACCEPTED, bim::PAYLOAD_ROOM, bim::AREA_SIZE]),
];
/// What a salvage's list tells, by reason.
const REASONS: [&str; 4] = ["good with bytes dropped", "31", "32", "33"];

/// One call in bytes: what it is given, and the rooms of its output buffers, the area's last.
#[derive(Clone, Debug, PartialEq, Eq)]
pub struct ShelfCase {
    /// Which call.
    pub call: Call,
    /// The stream or the file.
    pub given: Vec<u8>,
    /// The rooms.
    pub rooms: Vec<usize>,
}

impl ShelfCase {
    /// A call with rooms that are never too small.
    pub fn new(call: Call, given: Vec<u8>) -> Self {
        let rooms = [call.rooms(&given), vec![bim::SHELF_AREA]].concat();
        ShelfCase { call, given, rooms }
    }

    /// Asks `calls`, with these bytes and buffers.
    pub fn ask<O: AsMut<[u8]>>(&self, calls: &dyn ShelfCalls, given: &[u8], outputs: &mut [O]) -> u32 {
        match (self.call, outputs) {
            (Call::Write, [file, area]) => calls.shelf_write(given, file.as_mut(), area.as_mut()),
            (Call::Read, [records, area]) => calls.shelf_read(given, records.as_mut(), area.as_mut()),
            (Call::Salvage, [fresh, dropped, area]) => {
                calls.shelf_salvage(given, fresh.as_mut(), dropped.as_mut(), area.as_mut())
            }
            _ => panic!("{self:?} has not the buffers of its call"),
        }
    }

    /// What the judge leaves.
    pub fn judged(&self) -> Left {
        let mut outputs: Vec<_> = self.rooms.iter().map(|&room| vec![0xdd; room]).collect();
        let number = self.ask(&ShelfJudge, &self.given, &mut outputs);
        Left { number, outputs }
    }

    /// Cases with a block less, or cut shorter, or with less room.
    fn smaller(&self) -> Vec<ShelfCase> {
        let mut cases = vec![];
        let mut add = |change: &dyn Fn(&mut ShelfCase)| {
            let mut case = self.clone();
            change(&mut case);
            cases.push(case);
        };
        for index in 0..self.given.len() / bim::BLOCK_BYTES {
            add(&|case| drop(case.given.drain(index * bim::BLOCK_BYTES..(index + 1) * bim::BLOCK_BYTES)));
        }
        for length in [self.given.len() / 2, self.given.len().saturating_sub(1)] {
            if length < self.given.len() {
                add(&|case| case.given.truncate(length));
            }
        }
        for (index, &room) in self.rooms.iter().enumerate().filter(|(_, &room)| room > 0) {
            add(&|case| case.rooms[index] = room / 2);
        }
        cases
    }

    fn shown(&self) -> String {
        format!("{}, rooms {:?}, {} bytes: {}", self.call.name(), self.rooms, self.given.len(), hex(&self.given))
    }
}

/// The calls on trial, and what they answered so far.
pub struct ShelfBench<'a> {
    calls: &'a dyn ShelfCalls,
    junk: Rng,
    tally: Tally,
    met: Met,
    made: u64,
    rounds: u64,
    smallest: Option<ShelfCase>,
}

/// The named cases, then so many seeded rounds.
pub fn run(calls: &dyn ShelfCalls, rounds: u64, seed: u64) -> ShelfBench<'_> {
    run_while(calls, seed, |bench| bench.rounds < rounds)
}

/// The same until so many files were damaged.
pub fn damage(calls: &dyn ShelfCalls, files: u64, seed: u64) -> ShelfBench<'_> {
    run_while(calls, seed, |bench| bench.met.damaged.iter().sum::<u64>() < files)
}

fn run_while<'a>(calls: &'a dyn ShelfCalls, seed: u64, goes_on: impl Fn(&ShelfBench<'a>) -> bool) -> ShelfBench<'a> {
    let mut bench = ShelfBench::new(calls, seed);
    for (name, case) in shelf::vectors::all() {
        bench.ask(name, case);
    }
    let mut round = seed.wrapping_mul(0x1_0000_0000);
    while goes_on(&bench) {
        bench.round(round, &mut Rng::new(round));
        round = round.wrapping_add(1);
    }
    bench
}

impl<'a> ShelfBench<'a> {
    /// Nothing asked yet.
    pub fn new(calls: &'a dyn ShelfCalls, seed: u64) -> Self {
        let junk = Rng::new(!seed);
        ShelfBench { calls, junk, tally: Tally::default(), met: Met::default(), made: 0, rounds: 0, smallest: None }
    }

    /// One seeded round: a trial of the laws, or a call in rooms that are around what it needs.
    fn round(&mut self, seed: u64, rng: &mut Rng) {
        self.rounds += 1;
        if rng.one_in(4) {
            let case = any_case(rng);
            self.ask("rooms", &case);
            return;
        }
        let mut met = self.met;
        let held = laws::trial(
            &mut |call, given, rooms| {
                let rooms = [rooms, &[bim::SHELF_AREA]].concat();
                let left = self.ask("laws", &ShelfCase { call, given: given.to_vec(), rooms });
                Said::of(left.number, left.outputs)
            },
            &mut met,
            rng,
        );
        self.met = met;
        if let Err(fault) = held {
            self.tally.differ(|| format!("round {seed}: {fault}"));
        }
    }

    /// Asks both, the calls on trial in buffers of junk between guards, and keeps a difference. Gives what the calls on trial left.
    pub fn ask(&mut self, part: &str, case: &ShelfCase) -> Left {
        let (left, difference, expected) = self.compare(case);
        self.made += 1;
        self.tally.count(case.call.name(), expected);
        if let Some(difference) = difference {
            if self.smallest.as_ref().is_none_or(|smallest| case.given.len() < smallest.given.len()) {
                self.smallest = Some(case.clone());
            }
            self.tally.differ(|| format!("{part}: {}: {difference}", case.call.name()));
        }
        left
    }

    /// What the calls on trial leave, where that differs, and the judge's number.
    fn compare(&mut self, case: &ShelfCase) -> (Left, Option<String>, u32) {
        let mut given = Lent::holding(&mut self.junk, &case.given);
        let mut outputs: Vec<_> = case.rooms.iter().map(|&room| Lent::of_junk(&mut self.junk, room)).collect();
        let number = case.ask(self.calls, given.lent(), &mut outputs);
        // Whatever the call did, the buffers are looked at again: the compiler may not count on them.
        black_box((&mut given, &mut outputs));
        let left = Left { number, outputs: outputs.iter().map(|lent| lent.lent().to_vec()).collect() };
        let expected = case.judged();
        let difference = if left.number != expected.number {
            Some(format!("number {}, the peer's {}", left.number, expected.number))
        } else if let Some(index) = (0..outputs.len()).find(|&index| left.outputs[index] != expected.outputs[index]) {
            let (got, expected) = (&left.outputs[index], &expected.outputs[index]);
            let at = (0..got.len()).find(|&at| got[at] != expected[at]).unwrap_or(0);
            let end = got.len().min(at + 16);
            let (got, expected) = (&got[at..end], &expected[at..end]);
            Some(format!("number {number}, buffer {index} from byte {at}: {got:02x?}, the peer's {expected:02x?}"))
        } else if given.lent() != case.given || !given.guards_stand() {
            Some("what was given, or a byte beside it, changed".to_string())
        } else if !outputs.iter().all(Lent::guards_stand) {
            Some("bytes beside a buffer changed".to_string())
        } else {
            None
        };
        (left, difference, expected.number)
    }

    /// The differences found.
    pub fn differing(&self) -> u64 {
        self.tally.differing()
    }

    /// The calls made so far.
    pub fn calls(&self) -> u64 {
        self.made
    }

    /// Prints how often each call answered what.
    pub fn report_answers(&self) {
        for (call, calls, numbers) in self.tally.rows() {
            println!("{call}: {calls} calls   {numbers}");
        }
    }

    /// Prints all; true where there is no difference and, but in a sample, every number and every kind of damage was met.
    pub fn report(&mut self, sample: bool) -> bool {
        self.report_answers();
        let files: u64 = self.met.damaged.iter().sum();
        let kinds: Vec<_> =
            Damage::ALL.iter().zip(self.met.damaged).map(|(kind, count)| format!("{kind:?} {count}")).collect();
        println!("damaged files: {files} (last by {})", kinds.join(", "));
        let reasons: Vec<_> =
            REASONS.iter().zip(self.met.reasons).map(|(name, count)| format!("{name} {count}")).collect();
        println!("blocks in lists: {}", reasons.join(", "));
        println!(
            "sound all the same {}, something kept and something dropped {}, stretches without a start {}",
            self.met.sound, self.met.parted, self.met.without_start
        );
        let all_met = sample
            || self.tally.has_met(&NUMBERS)
                && [self.met.sound, self.met.parted, self.met.without_start].iter().all(|&count| count > 0)
                && self.met.damaged.iter().chain(&self.met.reasons).all(|&count| count > 0);
        println!("shelves: {} rounds, {} calls in all, {} differences", self.rounds, self.made, self.tally.differing());
        if let Some(case) = self.smallest.take() {
            println!("SMALLEST: {}", self.shrink(case).shown());
        }
        self.tally.shows_none() && all_met
    }

    /// The smallest case that still differs, as far as small steps lead.
    fn shrink(&mut self, mut case: ShelfCase) -> ShelfCase {
        while let Some(smaller) = case.smaller().into_iter().find(|smaller| self.compare(smaller).1.is_some()) {
            case = smaller;
        }
        case
    }
}

/// A call on a stream or a file, damaged or not, in rooms around those that it needs.
fn any_case(rng: &mut Rng) -> ShelfCase {
    let call = rng.pick(&Call::ALL);
    let given = match (call, rng.one_in(3)) {
        (Call::Write, false) => any_stream(rng),
        (Call::Write, true) => odd_stream(rng),
        (_, sound) => {
            let mut file = any_file(rng);
            if !sound {
                damage_file(rng, &mut file);
            }
            file
        }
    };
    let mut case = ShelfCase::new(call, given);
    other_rooms(rng, &mut case);
    case
}

/// Rooms at what the call fills, around it, or any.
fn other_rooms(rng: &mut Rng, case: &mut ShelfCase) {
    let said = ShelfCase::new(case.call, case.given.clone()).judged();
    let counts = Said::of(said.number, said.outputs).counts;
    let needed = match case.call {
        Call::Write => vec![counts.file],
        Call::Read => vec![counts.stream],
        Call::Salvage => vec![counts.file, bim::DROPPED as u64 * counts.entries],
    };
    let last = case.rooms.len() - 1;
    for (room, needed) in case.rooms[..last].iter_mut().zip(needed) {
        let (needed, any) = (needed as usize, rng.below(600));
        *room = rng.pick(&[needed, needed, needed + 1, needed.saturating_sub(1), needed + any, any, 0]);
    }
    if rng.one_in(8) {
        let any = rng.below(160);
        case.rooms[last] = rng.pick(&[0, 4, bim::SHELF_AREA - 1, bim::SHELF_AREA + 1, bim::AREA, any]);
    }
}

/// The first byte of a fuzzer's input that is a call for shelves; start-up messages have the two past it.
const SHELF: u8 = 0xfd;
/// The bytes before what the call is given: mark, call, two rooms of 2 bytes, the area, which blocks are mended.
const HEAD: usize = 8;

/// The case that a fuzzer's bytes code, where they are one for shelves. A bit for each of eight blocks, and for those eight further on, says
/// whether the sum is made right, so that a changed byte does not always end at 31.
pub fn decode(bytes: &[u8]) -> Option<ShelfCase> {
    let (head, given) = bytes.split_at_checked(HEAD)?;
    if head[0] != SHELF {
        return None;
    }
    let call = Call::ALL[usize::from(head[1]) % 3];
    let mut case = ShelfCase::new(call, given.to_vec());
    if call != Call::Write {
        for (index, block) in case.given.chunks_exact_mut(bim::BLOCK_BYTES).enumerate() {
            if head[7] >> (index % 8) & 1 == 1 {
                mend(block);
            }
        }
    }
    // 0 leaves the room that is never too small.
    let last = case.rooms.len() - 1;
    for (room, word) in case.rooms[..last].iter_mut().zip(head[2..6].chunks_exact(2)) {
        match u16::from_be_bytes([word[0], word[1]]) {
            0 => {}
            word => *room = usize::from(word) - 1,
        }
    }
    match head[6] {
        0 => {}
        byte => case.rooms[last] = usize::from(byte),
    }
    Some(case)
}

/// The bytes that code this case, sums as they are; `None` where its rooms are too many.
pub fn code(case: &ShelfCase) -> Option<Vec<u8>> {
    let usual = ShelfCase::new(case.call, case.given.clone()).rooms;
    let mut bytes = vec![SHELF, case.call as u8];
    let last = case.rooms.len() - 1;
    for index in 0..2 {
        let word = match case.rooms[..last].get(index) {
            Some(room) if *room != usual[index] => u16::try_from(room + 1).ok()?,
            _ => 0,
        };
        bytes.extend(word.to_be_bytes());
    }
    bytes.push(if case.rooms[last] == bim::SHELF_AREA { 0 } else { u8::try_from(case.rooms[last]).ok()? });
    bytes.push(0);
    bytes.extend(&case.given);
    Some(bytes)
}

/// The case changed in one way: damaged, turned into what another call takes, in other rooms.
pub fn change(rng: &mut Rng, case: &mut ShelfCase) {
    match (rng.below(8), case.call) {
        (0, _) => other_rooms(rng, case),
        (1, _) => *case = any_case(rng),
        (2 | 3, Call::Write) => {
            let left = ShelfCase::new(Call::Write, case.given.clone()).judged();
            if left.number == bim::ACCEPTED {
                *case = ShelfCase::new(Call::Read, left.outputs[0].clone());
            }
        }
        (2, _) => *case = ShelfCase::new(Call::Salvage, std::mem::take(&mut case.given)),
        (3, _) => *case = ShelfCase::new(Call::Read, std::mem::take(&mut case.given)),
        (_, Call::Write) => case.given = odd_stream(rng),
        (_, call) => {
            damage_file(rng, &mut case.given);
            *case = ShelfCase::new(call, std::mem::take(&mut case.given));
        }
    }
}

/// The named cases as a fuzzer's first bytes.
pub fn seeds() -> Vec<Vec<u8>> {
    shelf::vectors::all().iter().filter_map(|(_, case)| code(case)).collect()
}

#[cfg(test)]
mod tests {
    use super::*;

    #[test]
    fn cases_code_themselves() {
        let mut rng = Rng::new(1);
        for _ in 0..2000 {
            let mut case = any_case(&mut rng);
            change(&mut rng, &mut case);
            if case.rooms[case.rooms.len() - 1] == 0 {
                continue;
            }
            let again = code(&case).and_then(|bytes| decode(&bytes));
            assert!(again.is_none_or(|again| again == case));
        }
        assert!(seeds().len() > 30 && seeds().iter().all(|seed| decode(seed).is_some()));
    }
}
