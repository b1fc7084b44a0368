//! The lent bit reader's C calls against `lent`: codes at every place of small slices and past them, areas of every size
//! with junk in them, and slices so long that places end before they do.

use super::bench::Lent;
use crate::bim;
use crate::gen::{any_bits, edge_word};
use crate::lent::{self, Coding};
use crate::model::{bits5, bits_of, bytes_of, groups};
use crate::rng::Rng;
use crate::tally::{Numbers, Tally};
use std::hint::black_box;

/// The C calls of the bit reader, with their buffers as slices.
pub trait BitCalls {
    /// `bim_bits_fixed`, `bim_bits_vlu5` or `bim_bits_vlu8`.
    fn read(&self, bytes: &[u8], place: u32, coding: Coding, area: &mut [u8]) -> u32;
    /// `bim_bits_left`.
    fn left(&self, bytes: &[u8], place: u32) -> u32;
}

/// The bytes of slices whose last bits lie around bit 2^32 - 1.
const LONG: [usize; 3] = [(1 << 29) - 1, 1 << 29, (1 << 29) + 2];
/// What each call can answer.
const VLU: [u32; 5] = [bim::ACCEPTED, bim::PAST_END, bim::NOT_SHORTEST, bim::TOO_LARGE, bim::AREA_SIZE];
const NUMBERS: [Numbers; 3] = [
    ("bim_bits_fixed", &[bim::ACCEPTED, bim::PAST_END, bim::TOO_LARGE, bim::AREA_SIZE]),
    ("bim_bits_vlu5", &VLU),
    ("bim_bits_vlu8", &VLU),
];

/// The calls on trial, and what they answered so far.
pub struct BitBench<'a> {
    calls: &'a dyn BitCalls,
    junk: Rng,
    tally: Tally,
    cases: u64,
}

/// The long slices, then at least `cases` seeded calls.
pub fn run(calls: &dyn BitCalls, cases: u64, seed: u64) -> BitBench<'_> {
    let junk = Rng::new(!seed);
    let mut bench = BitBench { calls, junk, tally: Tally::default(), cases: 0 };
    bench.long_slices();
    let mut rng = Rng::new(seed.wrapping_mul(4).wrapping_add(3));
    while bench.cases < cases {
        bench.round(&mut rng);
    }
    bench
}

impl BitBench<'_> {
    /// One slice: its code at every place in it and around it, every width at the code's place, areas of other sizes.
    fn round(&mut self, rng: &mut Rng) {
        let coding = match rng.below(3) {
            0 => Coding::Fixed(rng.below(41) as u32),
            1 => Coding::Five,
            _ => Coding::Eight,
        };
        let (at, behind) = (rng.below(12), rng.below(12));
        let bits = [any_bits(rng, at), code(rng, coding), any_bits(rng, behind)].concat();
        let bytes = bytes_of(&bits);
        // Junk lies around the bytes, so that one bit too many shows.
        let held = Lent::holding(&mut self.junk, &bytes);
        let size = 8 * bytes.len() as u32;
        for place in (0..size + 3).chain([rng.word(), u32::MAX - 1, u32::MAX]) {
            self.ask(held.lent(), place, coding, bim::BITS_AREA);
            self.ask_left(held.lent(), place);
        }
        for width in (0..41).chain([rng.word(), u32::MAX]) {
            self.ask(held.lent(), at as u32, Coding::Fixed(width), bim::BITS_AREA);
        }
        for area in [0, 4, 11, 13, 24, 152, rng.below(40)] {
            self.ask(held.lent(), at as u32, coding, area);
        }
        if held.lent() != bytes || !held.guards_stand() {
            self.tally.differ(|| format!("bytes changed: {bytes:02x?}"));
        }
    }

    /// No page of these slices but the last is touched.
    fn long_slices(&mut self) {
        let mut bytes = vec![0; LONG[2]];
        for byte in &mut bytes[LONG[0] - 20..] {
            *byte = self.junk.word() as u8;
        }
        for size in LONG {
            for place in (0..90).map(|back| u32::MAX - back) {
                for coding in [0, 1, 7, 8, 9, 32, 33].map(Coding::Fixed) {
                    self.ask(&bytes[..size], place, coding, bim::BITS_AREA);
                }
                self.ask(&bytes[..size], place, Coding::Five, bim::BITS_AREA);
                self.ask(&bytes[..size], place, Coding::Eight, bim::BITS_AREA);
                self.ask_left(&bytes[..size], place);
            }
        }
    }

    /// Asks both, the calls on trial with an area of junk between guards.
    fn ask(&mut self, bytes: &[u8], place: u32, coding: Coding, room: usize) {
        let mut area = Lent::of_junk(&mut self.junk, room);
        let number = self.calls.read(bytes, place, coding, area.lent_mut());
        black_box(&mut area);
        let mut expected = vec![0xdd; room];
        let said = lent::read(bytes, place, coding, &mut expected);
        self.tally.count(name(coding), said);
        self.cases += 1;
        if (number, area.lent()) != (said, &expected[..]) || !area.guards_stand() {
            let got = area.lent().to_vec();
            self.tally.differ(|| {
                let near = (place as usize / 8).min(bytes.len());
                let bytes_near = &bytes[near.saturating_sub(2)..bytes.len().min(near + 8)];
                format!(
                    "{coding:?} at {place} of {} bytes, near it {bytes_near:02x?}, area of {room}: {number} {got:02x?}, \
                     the peer's {said} {expected:02x?}",
                    bytes.len()
                )
            });
        }
    }

    fn ask_left(&mut self, bytes: &[u8], place: u32) {
        let (got, expected) = (self.calls.left(bytes, place), lent::left(bytes, place));
        self.cases += 1;
        if got != expected {
            self.tally.differ(|| format!("left at {place} of {} bytes: {got}, the peer's {expected}", bytes.len()));
        }
    }

    /// Prints all; true where there is no difference and every number of every call was met.
    pub fn report(&self) -> bool {
        for (call, calls, numbers) in self.tally.rows() {
            println!("{call}: {calls} calls   {numbers}");
        }
        let good = self.tally.has_met(&NUMBERS);
        println!("bit reader: {} calls in all, {} differences", self.cases, self.tally.differing());
        self.tally.shows_none() && good
    }
}

fn name(coding: Coding) -> &'static str {
    match coding {
        Coding::Fixed(_) => NUMBERS[0].0,
        Coding::Five => NUMBERS[1].0,
        Coding::Eight => NUMBERS[2].0,
    }
}

/// The bits of a code of this kind: the shortest, a longer one, too long a one, or any bits.
fn code(rng: &mut Rng, coding: Coding) -> Vec<bool> {
    let value = u64::from(edge_word(rng));
    match coding {
        Coding::Fixed(width) => any_bits(rng, width as usize),
        Coding::Five => match rng.below(6) {
            0 => [vec![true; rng.within(6, 10)], any_bits(rng, 40)].concat(),
            1 => any_bits(rng, 48),
            2 => bits5(value, rng.within(groups(value), 8)),
            _ => bits5(value, groups(value)),
        },
        Coding::Eight => {
            let first = if rng.one_in(2) {
                rng.pick(&[0, 1, 0x7f, 0x80, 0x80, 0x80, 0x81, 0xff])
            } else {
                rng.below(256) as u64
            };
            bits_of(first << 8 | value & 0xff, 16)
        }
    }
}
