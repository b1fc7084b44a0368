//! The proved library's C calls against the peer: `calls [--sample | --shelves] [cases] [seed]`. Exit status 1 on a difference, or where
//! a number that a call can answer was never met, or a refusal of substitution, casting and dates among the seeded cases. A sample has no
//! named cases, and may miss numbers. With `--shelves` the calls for shelves alone are asked, until so many files were damaged.

mod proved;

use peer::program::{count_and_seed, status, usage};
use std::process::ExitCode;
use std::time::Instant;

fn main() -> ExitCode {
    let mut words = std::env::args().skip(1).peekable();
    let sample = words.next_if(|word| word == "--sample").is_some();
    let shelves = words.next_if(|word| word == "--shelves").is_some();
    let Some((cases, seed)) = count_and_seed(words, 300_000) else {
        return usage("calls [--sample | --shelves] [cases] [seed]");
    };
    let begun = Instant::now();
    let library = proved::Library::default();
    if shelves {
        let good = peer::calls::damage_shelves(&library, cases, seed).report(false);
        println!("time {:.1} s", begun.elapsed().as_secs_f64());
        return status(good);
    }
    let run = if sample { peer::calls::sample } else { peer::calls::run };
    let mut bench = run(&library, cases, seed);
    let good = bench.report() && (sample || bench.items_are_whole());
    // Codes are small: a sample takes more of them, so that every number is met.
    let codes = if sample { 20 * cases } else { cases };
    let good = peer::calls::run_bits(&library, codes, seed).report() && good;
    let mut messages = peer::calls::run_messages(&library, cases, seed);
    if !sample {
        messages.long_messages();
    }
    let good = messages.report() && good;
    // A round is some calls, each on several blocks.
    let good = peer::calls::run_shelves(&library, cases / 4, seed).report(sample) && good;
    // A report is 33 KB, compared whole at each call: a tenth as many.
    let reports = peer::calls::run_reports(&library, cases / 10, seed, sample);
    let good = reports.report() && good;
    println!("time {:.1} s", begun.elapsed().as_secs_f64());
    status(good)
}
