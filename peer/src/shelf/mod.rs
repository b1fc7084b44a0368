//! Shelf files and their salvage, requests 12 and 13: the C calls byte for byte. THE JUDGE here is `file` and `rescue`; `stretches` has the
//! pages once more, as a definition over whole files, and judges it.

pub mod damage;
pub mod file;
pub mod laws;
pub mod rescue;
pub mod stretches;
pub mod vectors;

use crate::answer::Refusal;
use crate::bim;
use crate::host::place_word;

/// What a call counts: the area but for its place.
#[derive(Clone, Copy, Debug, Default, PartialEq, Eq)]
pub struct Counts {
    /// Records of the stream.
    pub records: u64,
    /// Bytes of the stream.
    pub stream: u64,
    /// Bytes of the file: read, or written.
    pub file: u64,
    /// Entries of a salvage's list.
    pub entries: u64,
    /// Used bytes of good blocks in no kept record.
    pub dropped: u64,
}

/// The record of this root and payload, as it stands in a stream.
pub fn record(name: u16, of_type: u16, payload: &[u8]) -> Vec<u8> {
    [&(payload.len() as u16).to_be_bytes(), &name.to_be_bytes(), &of_type.to_be_bytes(), payload].concat()
}

/// Writes the file of a stream of records; `file` and `area` are written.
pub fn write(records: &[u8], file: &mut [u8], area: &mut [u8]) -> u32 {
    boundary(&mut [file], area, |[room]| {
        let (made, count) = file::write(records)?;
        let counts =
            Counts { records: count, stream: records.len() as u64, file: made.len() as u64, ..Counts::default() };
        fits(&made, *room).map(|()| ([made], counts))
    })
}

/// Reads the stream of records of a file; `records` and `area` are written.
pub fn read(file: &[u8], records: &mut [u8], area: &mut [u8]) -> u32 {
    boundary(&mut [records], area, |[room]| {
        let (stream, count) = file::read(file)?;
        let counts =
            Counts { records: count, stream: stream.len() as u64, file: file.len() as u64, ..Counts::default() };
        fits(&stream, *room).map(|()| ([stream], counts))
    })
}

/// Makes a new file of what a damaged one still holds; `fresh`, the list `dropped` and `area` are written.
pub fn salvage(file: &[u8], fresh: &mut [u8], dropped: &mut [u8], area: &mut [u8]) -> u32 {
    boundary(&mut [fresh, dropped], area, |[fresh_room, list_room]| {
        let rescue::Salvage { records, stream, entries } = rescue::salvage(file);
        let (made, _) = file::write(&stream)?;
        let list: Vec<u8> = entries.iter().flat_map(|entry| entry.bytes()).collect();
        let counts = Counts {
            records,
            stream: stream.len() as u64,
            file: made.len() as u64,
            entries: entries.len() as u64,
            dropped: entries.iter().map(|entry| u64::from(entry.bytes)).sum(),
        };
        fits(&made, *fresh_room)?;
        fits(&list, *list_room)?;
        Ok(([made, list], counts))
    })
}

/// What does not fit is 21 at 0.
fn fits(made: &[u8], room: usize) -> Result<(), Refusal> {
    match made.len() <= room {
        true => Ok(()),
        false => Err(Refusal { number: bim::PAYLOAD_ROOM, place: 0 }),
    }
}

/// 24 first; then the answer of `ask`, which is told the rooms: its outputs with zeros behind them and its counts, or zeros and a place.
fn boundary<const N: usize>(
    outputs: &mut [&mut [u8]; N],
    area: &mut [u8],
    ask: impl FnOnce(&[usize; N]) -> Result<([Vec<u8>; N], Counts), Refusal>,
) -> u32 {
    let rooms = std::array::from_fn(|index| outputs[index].len());
    outputs.iter_mut().for_each(|output| output.fill(0));
    area.fill(0);
    if area.len() != bim::SHELF_AREA {
        return bim::AREA_SIZE;
    }
    match ask(&rooms) {
        Ok((made, counts)) => {
            for (output, made) in outputs.iter_mut().zip(made) {
                output[..made.len()].copy_from_slice(&made);
            }
            let Counts { records, stream, file, entries, dropped } = counts;
            for (bytes, count) in area[4..].chunks_exact_mut(8).zip([records, stream, file, entries, dropped]) {
                bytes.copy_from_slice(&count.to_be_bytes());
            }
            bim::ACCEPTED
        }
        Err(Refusal { number, place }) => {
            area[..4].copy_from_slice(&place_word(place).to_be_bytes());
            number
        }
    }
}
