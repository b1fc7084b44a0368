//! The proved leaves against the peer: `leaves [rounds] [seed]`. Exit status 1 on a difference, or where a number that a leaf
//! can answer was never met.

mod dates;
mod proved;
mod reads;
mod signs;
mod tables;
mod texts;
mod writes;

use peer::bim;
use peer::program::{count_and_seed, status, usage};
use peer::rng::Rng;
use peer::tally::{Numbers, Tally};
use proved::OUTSIDE;
use std::process::ExitCode;
use std::time::Instant;

/// A code of a fixed width, or a number in any form.
const FIXED: &[u32] = &[bim::ACCEPTED, bim::PAST_END, bim::TOO_LARGE, OUTSIDE];
/// A number in shortest form.
const SHORTEST: &[u32] = &[bim::ACCEPTED, bim::PAST_END, bim::NOT_SHORTEST, bim::TOO_LARGE, OUTSIDE];
/// A number in shortest form, or one of several choices, as the row has it.
const ROW: &[u32] = &[bim::ACCEPTED, bim::PAST_END, bim::NOT_SHORTEST, bim::TOO_LARGE, bim::NO_SUCH_CODE, OUTSIDE];
/// A code written or a bit read, which has room or has not.
const PUT: &[u32] = &[bim::ACCEPTED, OUTSIDE];
/// A code of a row written, and its size.
const PUT_ROW: &[u32] = &[bim::ACCEPTED, bim::OUTSIDE_ROW, OUTSIDE];
const SIZE: &[u32] = &[bim::ACCEPTED, bim::OUTSIDE_ROW];
const YES_NO: &[u32] = &[0, 1];

/// Every number that a leaf can answer; of a row's leaf, its kind.
const NUMBERS: [Numbers; 34] = [
    ("any5", FIXED),
    ("any8", FIXED),
    ("attribute", YES_NO),
    ("bit", PUT),
    ("byte", PUT),
    ("choice", &[bim::ACCEPTED, bim::PAST_END, bim::NO_SUCH_CODE, OUTSIDE]),
    ("content", &[bim::EMPTY, bim::SIMPLE, bim::PARTICLES]),
    ("date_of", &[bim::ACCEPTED]),
    ("day_of", SIZE),
    ("fixed", FIXED),
    ("gap", YES_NO),
    ("held", YES_NO),
    ("number", SHORTEST),
    ("particle", &[bim::ELEMENT, bim::SEQUENCE, bim::CHOICE, bim::OCCURS]),
    ("put", PUT),
    ("put5", PUT),
    ("put8", PUT_ROW),
    ("put_bytes", PUT),
    ("put_date", PUT_ROW),
    ("put_range", PUT_ROW),
    ("put_simple", PUT_ROW),
    ("put_times", PUT_ROW),
    ("range", ROW),
    ("simple", ROW),
    ("simple", &[bim::MINUS_ZERO, bim::NOT_UTF8, bim::CONTROL]),
    ("size_range", SIZE),
    ("size_simple", SIZE),
    ("size_times", SIZE),
    ("table", &[bim::ACCEPTED, bim::TABLE]),
    ("text_fault", &[bim::ACCEPTED, bim::NOT_UTF8, bim::CONTROL, OUTSIDE]),
    ("times", ROW),
    ("utf8", &[bim::ACCEPTED, bim::NOT_UTF8, bim::CONTROL]),
    ("vlu5", SHORTEST),
    ("vlu8", SHORTEST),
];

fn main() -> ExitCode {
    let Some((rounds, seed)) = count_and_seed(std::env::args().skip(1), 20_000) else {
        return usage("leaves [rounds] [seed]");
    };
    let begun = Instant::now();
    let mut tally = Tally::default();
    let mut rng = Rng::new(seed);
    signs::widths(&mut tally);
    texts::damages(&mut rng, &mut tally);
    texts::controls(&mut rng, &mut tally);
    tables::named(&mut tally);
    for _ in 0..rounds {
        reads::round(&mut rng, &mut tally);
        dates::round(&mut rng, &mut tally);
        writes::round(&mut rng, &mut tally);
        texts::round(&mut rng, &mut tally);
        signs::round(&mut rng, &mut tally);
        tables::round(&mut rng, &mut tally);
    }
    let mut cases = 0;
    for (leaf, count, numbers) in tally.rows() {
        println!("{leaf:<12} {count:>9} cases   {numbers}");
        cases += count;
    }
    println!("{cases} cases of {} leaves, {} differences", tally.rows().count(), tally.differing());
    let good = tally.shows_none();
    let good = tally.has_met(&NUMBERS) && good;
    println!("time {:.1} s", begun.elapsed().as_secs_f64());
    status(good)
}
