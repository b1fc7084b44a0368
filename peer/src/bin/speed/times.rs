//! Times: the sides in turn, many times, and the median of each.

use crate::sides::{Buffers, SIDES};
use peer::calls::Case;
use std::hint::black_box;
use std::time::Instant;

const ROUNDS: usize = 301;
/// A round of one side takes about so long: far more than reading the clock.
const NANOSECONDS: f64 = 40_000.0;

/// Nanoseconds of a call, for each side: the median over the rounds.
pub fn medians(case: &Case) -> [f64; SIDES.len()] {
    let mut buffers = Buffers::of(case);
    in_turn(|side| buffers.ask(case, SIDES[side]))
}

/// The same of any sides, by their index.
#[inline(always)]
pub fn in_turn<const N: usize>(mut ask: impl FnMut(usize) -> u32) -> [f64; N] {
    let mut time = |side, calls: usize| {
        let begun = Instant::now();
        for _ in 0..calls {
            black_box(ask(side));
        }
        begun.elapsed().as_nanos() as f64 / calls as f64
    };
    let sides: [usize; N] = std::array::from_fn(|side| side);
    let calls = sides.map(|side| {
        let shortest = (0..20).map(|_| time(side, 1)).fold(f64::MAX, f64::min);
        ((NANOSECONDS / shortest) as usize).clamp(1, 1000)
    });
    let mut times = sides.map(|_| Vec::with_capacity(ROUNDS));
    for _ in 0..ROUNDS {
        for ((side, &calls), times) in sides.iter().zip(&calls).zip(&mut times) {
            times.push(time(*side, calls));
        }
    }
    times.map(|mut times| {
        times.sort_by(f64::total_cmp);
        times[ROUNDS / 2]
    })
}
