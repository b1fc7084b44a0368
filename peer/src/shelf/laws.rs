//! The theorems of requests 12 and 13 as properties of whoever answers the calls, the judge or another: each asks calls, and is told what they left.

use super::damage::{any_file, any_stream, cut_anyway, damage, odd_stream, Damage};
use super::file::{starts, sum, Block};
use super::{read, salvage, stretches, write, Counts};
use crate::bim;
use crate::rng::Rng;
use crate::words::words_of;

/// The three calls.
#[derive(Clone, Copy, Debug, PartialEq, Eq)]
pub enum Call {
    /// `bim_shelf_write`.
    Write,
    /// `bim_shelf_read`.
    Read,
    /// `bim_shelf_salvage`.
    Salvage,
}

impl Call {
    /// All, in the header's order.
    pub const ALL: [Call; 3] = [Call::Write, Call::Read, Call::Salvage];

    /// The C name.
    pub fn name(self) -> &'static str {
        match self {
            Call::Write => "bim_shelf_write",
            Call::Read => "bim_shelf_read",
            Call::Salvage => "bim_shelf_salvage",
        }
    }

    /// Rooms that are never too small for these bytes.
    pub fn rooms(self, given: &[u8]) -> Vec<usize> {
        let blocks = given.len().div_ceil(bim::BLOCK_BYTES);
        match self {
            Call::Write => vec![given.len().div_ceil(bim::BLOCK_DATA) * bim::BLOCK_BYTES],
            Call::Read => vec![given.len()],
            Call::Salvage => vec![given.len(), bim::DROPPED * blocks],
        }
    }
}

/// What a call left, in words.
#[derive(Clone, Debug, PartialEq, Eq)]
pub struct Said {
    /// 0 on acceptance.
    pub number: u32,
    /// 0 on acceptance.
    pub place: u32,
    /// The area's counts.
    pub counts: Counts,
    /// The output buffers.
    pub outputs: Vec<Vec<u8>>,
}

impl Said {
    /// What these buffers say, the area last; an area of another size says nothing.
    pub fn of(number: u32, mut outputs: Vec<Vec<u8>>) -> Self {
        let area = outputs.pop().filter(|area| area.len() == bim::SHELF_AREA).unwrap_or(vec![0; bim::SHELF_AREA]);
        let count =
            |index: usize| area[4 + 8 * index..12 + 8 * index].iter().fold(0, |n, &byte| n << 8 | u64::from(byte));
        let counts =
            Counts { records: count(0), stream: count(1), file: count(2), entries: count(3), dropped: count(4) };
        Said { number, place: words_of(&area)[0], counts, outputs }
    }

    fn accepted(&self) -> bool {
        self.number == bim::ACCEPTED
    }

    /// So many bytes of the first output; fewer where it has not so many.
    fn made(&self, bytes: u64) -> &[u8] {
        &self.outputs[0][..self.outputs[0].len().min(bytes as usize)]
    }

    /// The entries of a salvage's list: block, reason, bytes.
    fn list(&self) -> Vec<[u32; 3]> {
        let words = words_of(&self.outputs[1]);
        let entries = words.chunks_exact(3).take(self.counts.entries as usize);
        entries.map(|entry| [entry[0], entry[1], entry[2]]).collect()
    }
}

/// Who answers: a call, what it is given, the rooms that it is lent.
pub type Asked<'a> = &'a mut dyn FnMut(Call, &[u8], &[usize]) -> Said;

/// The judge's answer.
pub fn judge(call: Call, given: &[u8], rooms: &[usize]) -> Said {
    let mut outputs: Vec<Vec<u8>> = rooms.iter().map(|&room| vec![0xdd; room]).collect();
    let mut area = vec![0xdd; bim::SHELF_AREA];
    let number = match (call, &mut outputs[..]) {
        (Call::Write, [file]) => write(given, file, &mut area),
        (Call::Read, [records]) => read(given, records, &mut area),
        (Call::Salvage, [fresh, dropped]) => salvage(given, fresh, dropped, &mut area),
        _ => panic!("{call:?} has not the buffers of its call"),
    };
    outputs.push(area);
    Said::of(number, outputs)
}

/// What a trial met.
#[derive(Clone, Copy, Debug, Default)]
pub struct Met {
    /// Files damaged, by the kind of damage that came last.
    pub damaged: [u64; Damage::ALL.len()],
    /// Damaged files that are sound all the same.
    pub sound: u64,
    /// Salvages that dropped something and kept something.
    pub parted: u64,
    /// Blocks by reason: good with bytes dropped, 31, 32, 33.
    pub reasons: [u64; 4],
    /// Stretches that name no start.
    pub without_start: u64,
}

/// Fails with these words where it is not so.
fn hold(good: bool, what: impl FnOnce() -> String) -> Result<(), String> {
    match good {
        true => Ok(()),
        false => Err(what()),
    }
}

/// `write-read`: the file of a stream of records reads back to that stream.
pub fn write_read(ask: Asked<'_>, stream: &[u8]) -> Result<Vec<u8>, String> {
    let written = ask(Call::Write, stream, &Call::Write.rooms(stream));
    hold(written.accepted(), || format!("write-read: refused {} at {}", written.number, written.place))?;
    let file = written.made(written.counts.file).to_vec();
    let again = ask(Call::Read, &file, &[stream.len()]);
    hold(again.accepted() && again.outputs[0] == stream, || {
        format!("write-read: read back {} at {}, or as other records", again.number, again.place)
    })?;
    hold(again.counts == written.counts, || format!("write-read: {:?}, then {:?}", written.counts, again.counts))?;
    Ok(file)
}

/// A stream that the writer refuses 33 is refused 33 by the reader, at the same block of the file cut from it; any other is read back.
pub fn refused_alike(ask: Asked<'_>, stream: &[u8]) -> Result<(), String> {
    let written = ask(Call::Write, stream, &Call::Write.rooms(stream));
    if written.accepted() {
        return write_read(ask, stream).map(drop);
    }
    let file = cut_anyway(stream);
    let again = ask(Call::Read, &file, &Call::Read.rooms(&file));
    hold((again.number, again.place) == (written.number, written.place), || {
        format!("written: {} at {}; read: {} at {}", written.number, written.place, again.number, again.place)
    })
}

/// `untouched`: where some blocks of the writer's file have other bytes with a wrong sum, the records that none of them held are kept.
pub fn untouched(ask: Asked<'_>, stream: &[u8], file: &[u8], replaced: &[usize]) -> Result<(), String> {
    let starts = starts(stream).unwrap_or_default();
    let ends = starts.iter().skip(1).copied().chain([stream.len()]);
    let mut kept = vec![];
    for (&start, end) in starts.iter().zip(ends) {
        let blocks = start / bim::BLOCK_DATA..=(end - 1) / bim::BLOCK_DATA;
        if !replaced.iter().any(|block| blocks.contains(block)) {
            kept.extend(&stream[start..end]);
        }
    }
    let said = ask(Call::Salvage, file, &Call::Salvage.rooms(file));
    let expected = write_read(ask, &kept)?;
    hold(said.accepted() && said.made(said.counts.file) == expected, || {
        format!("untouched: blocks {replaced:?} replaced, and {} records kept", said.counts.records)
    })
}

/// All that is promised of any file: `read-write`, `accounts`, `nothing-else` and `all-whole`, `sound-stays`, that the new file reads back,
/// and room; and that the definition by stretches says the same.
pub fn any(ask: Asked<'_>, met: &mut Met, file: &[u8]) -> Result<(), String> {
    let said = ask(Call::Read, file, &Call::Read.rooms(file));
    match stretches::refused(file) {
        None => {
            let records = stretches::records(file);
            hold(said.accepted() && said.made(said.counts.stream) == records, || {
                format!("refused {} at {}, and by the definition it is not", said.number, said.place)
            })?;
            let written = ask(Call::Write, &records, &[file.len()]);
            hold(written.accepted() && written.outputs[0] == file, || "read-write: another file".to_string())?;
            met.sound += 1;
        }
        Some(refusal) => hold((said.number, u64::from(said.place)) == (refusal.number, refusal.place), || {
            format!("{} at {}, and by the definition {refusal:?}", said.number, said.place)
        })?,
    }
    let saved = ask(Call::Salvage, file, &Call::Salvage.rooms(file));
    hold(saved.accepted(), || format!("room: refused {}", saved.number))?;
    by_definition(file, &saved)?;
    let list = saved.list();
    accounts(file, &saved, &list)?;
    sound_stays(file, said.accepted(), &saved, &list)?;
    let fresh = saved.made(saved.counts.file).to_vec();
    let stream = whole_records(file, &list, met);
    let again = ask(Call::Read, &fresh, &[stream.len()]);
    hold(again.accepted() && again.outputs[0] == stream, || "all-whole: other records are kept".to_string())?;
    hold(again.counts.records == saved.counts.records && again.counts.stream == saved.counts.stream, || {
        format!("the new file has {:?}, and said was {:?}", again.counts, saved.counts)
    })?;
    for entry in &list {
        met.reasons[if entry[1] == 0 { 0 } else { entry[1] as usize - 30 }] += 1;
    }
    met.parted += u64::from(saved.counts.records > 0 && !list.is_empty());
    Ok(())
}

/// The salvage by stretches is the same.
fn by_definition(file: &[u8], saved: &Said) -> Result<(), String> {
    let defined = stretches::salvage(file);
    let list: Vec<_> = defined.entries.iter().map(|entry| [entry.block, entry.reason, entry.bytes]).collect();
    hold(saved.list() == list, || format!("the list is {:?}, and by stretches {list:?}", saved.list()))?;
    hold(saved.counts.records == defined.records && saved.counts.stream == defined.stream.len() as u64, || {
        format!("{:?}, and by stretches {} records", saved.counts, defined.records)
    })
}

/// `accounts`: what good blocks use is what is kept and what is dropped; the list is in the file's order and names each block once.
fn accounts(file: &[u8], saved: &Said, list: &[[u32; 3]]) -> Result<(), String> {
    let bad = |index: usize| list.iter().any(|entry| entry[0] as usize == index && entry[1] != 0);
    let good = file
        .chunks(bim::BLOCK_BYTES)
        .enumerate()
        .filter(|&(index, bytes)| bytes.len() == bim::BLOCK_BYTES && !bad(index));
    let used: u64 = good.map(|(_, bytes)| Block::of(bytes).used() as u64).sum();
    let dropped: u64 = list.iter().map(|entry| u64::from(entry[2])).sum();
    hold(used == saved.counts.stream + dropped && dropped == saved.counts.dropped, || {
        format!("accounts: {used} used, {} kept, {dropped} dropped", saved.counts.stream)
    })?;
    hold(list.windows(2).all(|pair| pair[0][0] < pair[1][0]), || "accounts: the list is out of order".to_string())?;
    hold(list.iter().all(|entry| (entry[1] == 0) == (entry[2] > 0)), || format!("accounts: {list:?}"))
}

/// `sound-stays`: the reader accepts exactly where no block is bad and the first number is 0; then nothing is dropped and nothing changes.
fn sound_stays(file: &[u8], accepted: bool, saved: &Said, list: &[[u32; 3]]) -> Result<(), String> {
    let begins =
        file.is_empty() || file.len() >= bim::BLOCK_BYTES && Block::of(&file[..bim::BLOCK_BYTES]).number() == 0;
    let sound = begins && list.iter().all(|entry| entry[1] == 0);
    hold(sound == accepted, || format!("sound-stays: read {accepted}, no block bad {sound}"))?;
    let stays = list.is_empty() && saved.made(saved.counts.file) == file;
    hold(!sound || stays, || "sound-stays: something changes".to_string())
}

/// `nothing-else` and `all-whole`, by the answer's own list: of each run of blocks that it does not call bad the records that are read from the
/// first named start and end in it.
fn whole_records(file: &[u8], list: &[[u32; 3]], met: &mut Met) -> Vec<u8> {
    let bad = |index: usize| list.iter().any(|entry| entry[0] as usize == index && entry[1] != 0);
    let blocks: Vec<_> = file.chunks(bim::BLOCK_BYTES).enumerate().collect();
    let mut kept = vec![];
    for run in blocks.split(|&(index, _)| bad(index)).filter(|run| !run.is_empty()) {
        let (mut data, mut start) = (vec![], None);
        for (_, bytes) in run {
            let block = Block::of(bytes);
            if start.is_none() && block.first() != bim::NO_START {
                start = Some(data.len() + usize::from(block.first()));
            }
            data.extend(block.data());
        }
        met.without_start += u64::from(start.is_none());
        let mut rest = start.map_or(&[][..], |start| &data[start..]);
        while let Some(record) =
            rest.get(..2).and_then(|length| rest.get(..6 + words_of(&[0, 0, length[0], length[1]])[0] as usize))
        {
            kept.extend(record);
            rest = &rest[record.len()..];
        }
    }
    kept
}

/// One seeded trial: a stream written and read, and its file damaged.
pub fn trial(ask: Asked<'_>, met: &mut Met, rng: &mut Rng) -> Result<(), String> {
    if rng.one_in(4) {
        return refused_alike(ask, &odd_stream(rng));
    }
    let stream = any_stream(rng);
    let file = write_read(ask, &stream)?;
    if rng.one_in(4) {
        let mut broken = file.clone();
        let mut replaced = vec![];
        for (index, block) in broken.chunks_exact_mut(bim::BLOCK_BYTES).enumerate() {
            if rng.one_in(3) {
                block.iter_mut().for_each(|byte| *byte = rng.word() as u8);
                block[bim::BLOCK_BYTES - 1] = (sum(block) as u8).wrapping_add(1);
                replaced.push(index);
            }
        }
        return untouched(ask, &stream, &broken, &replaced);
    }
    let mut broken = if rng.one_in(8) { [any_file(rng), file].concat() } else { file };
    let mut last = damage(rng, &mut broken);
    for _ in 0..rng.pick(&[0, 0, 0, 1, 2]) {
        last = damage(rng, &mut broken);
    }
    met.damaged[last as usize] += 1;
    any(ask, met, &broken)
}
