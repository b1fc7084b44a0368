//! The C calls once more, for speed: the proved calls' opponent in `bin/speed`. Words are read where they lie, bits by wide loads,
//! texts eight bytes at a time; nothing is allocated, and only what a call leaves unused is cleared. `host` judges it (tests/swift.rs).

mod bits;
pub mod calendar;
mod reading;
mod table;
mod writing;

pub use reading::read;
pub use writing::{write, write_lengths};

use crate::bim;

/// Judges a table.
pub fn check_table(table: &[u8], area: &mut [u8]) -> u32 {
    let Some(area) = whole_area(area) else {
        return bim::AREA_SIZE;
    };
    match table::Table::new(table) {
        Ok(_) => {
            fill_area(area, [0; 6], &[]);
            bim::ACCEPTED
        }
        Err(word) => refuse(area, (bim::TABLE, word), &[]),
    }
}

/// Sets or clears a party's mark of a type where it lies; `area` is written.
pub fn set_held(table: &mut [u8], party: u32, of_type: u32, mark: u32, area: &mut [u8]) -> u32 {
    let Some(area) = whole_area(area) else {
        return bim::AREA_SIZE;
    };
    let right = table::Table::new(table).map_err(|word| (bim::TABLE, word)).and_then(|table| {
        table.check_root(0, of_type)?;
        check_party(party)
    });
    if let Err(refused) = right {
        return refuse(area, refused, &[]);
    }
    // The lowest byte of the held word has all eight marks.
    let byte = &mut table[4 * (bim::HEADER + bim::TYPE_ROW * of_type as usize) + 3];
    let bit = 1 << party;
    *byte = (*byte & !bit) | if mark == 0 { 0 } else { bit };
    fill_area(area, [0; 6], &[]);
    bim::ACCEPTED
}

/// 26 for a party that there is not.
#[inline(always)]
fn check_party(party: u32) -> Result<(), (u32, usize)> {
    if party >= bim::PARTIES {
        return Err((bim::PARTY, 0));
    }
    Ok(())
}

/// Fills the area of a refusal, and gives its number.
fn refuse(area: &mut [u8; bim::AREA], (number, place): (u32, usize), names: &[u16]) -> u32 {
    // Places stop at 2^32 - 1.
    let place = u32::try_from(place).unwrap_or(u32::MAX);
    fill_area(area, [place, 0, 0, 0, 0, names.len() as u32], names);
    number
}

/// The area, if it has its size; any other is cleared.
fn whole_area(area: &mut [u8]) -> Option<&mut [u8; bim::AREA]> {
    if area.len() != bim::AREA {
        area.fill(0);
        return None;
    }
    area.first_chunk_mut()
}

/// Six words, then the names, then zeros.
fn fill_area(area: &mut [u8; bim::AREA], words: [u32; 6], names: &[u16]) {
    let (head, rest) = area.split_at_mut(24);
    for (bytes, word) in head.as_chunks_mut::<4>().0.iter_mut().zip(words) {
        *bytes = word.to_be_bytes();
    }
    rest.fill(0);
    for (bytes, name) in rest.as_chunks_mut::<2>().0.iter_mut().zip(names) {
        *bytes = name.to_be_bytes();
    }
}
