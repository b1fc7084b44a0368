//! Tries the three demands, what is promised of the start-up message, and the theorems of shelves: `properties [count] [seed]`. Exit status 1 on a violation,
//! or where some number or some side of a limit was not met.

use peer::calls::shelves::ShelfJudge;
use peer::calls::{run_messages, run_reports, MessageJudge, ReportJudge};
use peer::demands::{named, Tally};
use peer::program::{count_and_seed, status, usage};
use peer::trials::{trial, KINDS};
use std::panic::{catch_unwind, AssertUnwindSafe};
use std::process::ExitCode;
use std::time::Instant;

/// The two sides of every limit, by the beginnings of the names of the cases that stand there.
const LIMITS: &str = include_str!("../../../examples/limits.txt");

fn main() -> ExitCode {
    let Some((count, seed)) = count_and_seed(std::env::args().skip(1), 200_000) else {
        return usage("properties [count] [seed]");
    };
    let begun = Instant::now();
    let mut tally = Tally::default();
    let mut faults = vec![];

    let cases = peer::cases::all();
    for case in cases {
        if let Err(fault) = named(&mut tally, case) {
            faults.push(fault);
        }
    }
    let sides: Vec<_> = LIMITS.lines().filter(|line| !line.starts_with('#')).collect();
    for side in &sides {
        let messages = peer::message_cases::all().iter().map(|case| &case.name);
        let others = messages.chain(peer::shelf::vectors::all().iter().map(|(name, _)| name));
        if !cases.iter().map(|case| &case.name).chain(others).any(|name| name.starts_with(*side)) {
            faults.push(format!("no named case stands at \"{side}\""));
        }
    }

    // The seeded cases alone have to meet every refusal of substitution, casting and dates.
    tally.items = peer::tally::Tally::default();
    let mut kinds = [0_u64; KINDS.len()];
    for index in 0..count {
        // A panic is a call that did not end with an answer (demand 1), unless the trial itself is at fault.
        let seed = seed.wrapping_mul(0x1_0000_0000).wrapping_add(index);
        let ended = catch_unwind(AssertUnwindSafe(|| trial(&mut tally, seed)));
        let fault = match ended {
            Ok((kind, result)) => {
                kinds[kind] += 1;
                result.err()
            }
            Err(_) => Some("demand 1: no answer, but a panic".to_string()),
        };
        if let Some(fault) = fault {
            faults.push(format!("seed {seed}: {fault}"));
            if faults.len() > 9 {
                break;
            }
        }
    }
    let shelves = peer::calls::run_shelves(&ShelfJudge, count / 4, seed).report(count < 40_000);
    if !shelves {
        faults.push("a theorem of shelves does not hold, or not all of it was met".to_string());
    }
    println!("named cases {}, sides of limits {}", cases.len(), sides.len());
    report(&tally, &kinds);
    if !tally.is_whole() || !tally.items_are_whole() || !tally.pairs.are_whole() || !tally.parties_are_whole() {
        faults.push("not all was met".to_string());
    }
    // The peer's own reports, by what the request promises of them.
    if !run_reports(&ReportJudge, count / 20, seed, false).report() {
        faults.push("reports".to_string());
    }
    // Its promises, of the peer's own calls: their answers are held against meanings and how these are spelt.
    if !run_messages(&MessageJudge, count, seed).report() {
        faults.push("the start-up message".to_string());
    }
    println!("time {:.1} s", begun.elapsed().as_secs_f64());
    faults.iter().for_each(|fault| println!("FAILED: {fault}"));
    if faults.is_empty() {
        println!("all held");
    }
    status(faults.is_empty())
}

fn report(tally: &Tally, kinds: &[u64]) {
    for (kind, count) in KINDS.iter().zip(kinds) {
        println!("trials of {kind}: {count}");
    }
    for (side, _, numbers) in tally.met.rows() {
        println!("{side}: {}", numbers.replacen("0: ", "accepted ", 1));
    }
    for (item, _, numbers) in tally.items.rows() {
        println!("refused, {item}: {numbers}");
    }
    println!("table check: right {}, wrong {}", tally.tables[0], tally.tables[1]);
    println!("accepted with Blanks {}, with a padded TheLength {}", tally.blanks, tally.padded);
    println!("written back identically {}, in fewer bits {}", tally.identical, tally.shorter);
    println!("demand 3: {}", tally.pairs);
    println!("settings by others {}, in both orders {}", tally.others, tally.commuted);
}
