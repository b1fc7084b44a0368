//! The comparison of the bit reader's C calls notices every one of these faults in a stand-in, and none in the peer itself.

#[macro_use]
mod common;

use peer::bim;
use peer::calls::{run_bits, BitCalls};
use peer::lent::{self, Coding};
use std::hint::black_box;

faults! {
    /// A refused code moves the place.
    RefusedMoves,
    /// A refused code leaves the value that stood in the area.
    ValueLeft,
    /// The bits left are those before the code.
    LeftBefore,
    /// Of a place past the end the bits left are many.
    LeftWraps,
    /// No bits past the end are taken for a code of no bits.
    NothingPastEnd,
    /// A width over 32 that passes the end is 5.
    WideIsPastEnd,
    /// A long form is taken.
    LongForm,
    /// An area of 13 bytes is taken.
    LargerArea,
    /// An area of a wrong size keeps its bytes.
    AreaLeft,
    /// A byte behind the area changes.
    BehindArea,
    /// What lies behind the bytes is read.
    ReadsOn,
    /// The bits of a long slice are counted modulo 2^32.
    CountWraps,
}
use Fault::*;

struct StandIn(Fault);

impl BitCalls for StandIn {
    fn read(&self, bytes: &[u8], place: u32, coding: Coding, area: &mut [u8]) -> u32 {
        let old = area.to_vec();
        let past = place as usize > 8 * bytes.len();
        match (self.0, coding) {
            (LargerArea, _) if area.len() == bim::BITS_AREA + 1 => {
                area[bim::BITS_AREA] = 0;
                return lent::read(bytes, place, coding, &mut area[..bim::BITS_AREA]);
            }
            (NothingPastEnd, Coding::Fixed(0)) if past && area.len() == bim::BITS_AREA => {
                lent::read(bytes, place, coding, area);
                return 0;
            }
            (CountWraps, _) if bytes.len() >= 1 << 29 => {
                return lent::read(&bytes[..bytes.len() - (1 << 29)], place, coding, area)
            }
            (ReadsOn, _) if !bytes.is_empty() && bytes.len() < 100 => {
                let mut longer = bytes.to_vec();
                longer.push(unsafe { black_box(bytes.as_ptr().wrapping_add(bytes.len())).read_volatile() });
                return lent::read(&longer, place, coding, area);
            }
            _ => {}
        }
        let number = lent::read(bytes, place, coding, area);
        match self.0 {
            RefusedMoves if number == bim::NOT_SHORTEST => area[7] = area[7].wrapping_add(1),
            ValueLeft if number == bim::PAST_END => area[..4].copy_from_slice(&old[..4]),
            LeftBefore if number == bim::ACCEPTED => area[8..].copy_from_slice(&lent::left(bytes, place).to_be_bytes()),
            WideIsPastEnd if number == bim::TOO_LARGE && matches!(coding, Coding::Fixed(_)) && past => {
                return bim::PAST_END
            }
            LongForm if number == bim::NOT_SHORTEST => return 0,
            AreaLeft if number == bim::AREA_SIZE => area.copy_from_slice(&old),
            BehindArea => {
                let behind = black_box(area.as_mut_ptr().wrapping_add(area.len()));
                unsafe { behind.write_volatile(behind.read_volatile() ^ 1) }
            }
            _ => {}
        }
        number
    }

    fn left(&self, bytes: &[u8], place: u32) -> u32 {
        match self.0 {
            LeftWraps => (bytes.len() as u32).wrapping_mul(8).wrapping_sub(place),
            _ => lent::left(bytes, place),
        }
    }
}

#[test]
fn the_peer_itself_has_no_fault() {
    assert!(run_bits(&StandIn(None), 20_000, 1).report());
}

#[test]
fn every_fault_is_noticed() {
    for &fault in FAULTS {
        assert!(!run_bits(&StandIn(fault), 20_000, 1).report(), "{fault:?} went unnoticed");
    }
}
