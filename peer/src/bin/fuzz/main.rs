//! The proved C calls under libFuzzer, with the peer as the judge: each input is a case (`calls::decode_message`, `shelves::decode`, else `calls::decode`), asked
//! of both and compared as `calls` compares them. A difference is made small, shown, and ends the run; so does a panic. libFuzzer brings `main`.

#![no_main]

#[path = "../calls/proved.rs"]
mod proved;

use peer::bim;
use peer::calls::{
    ask, change, change_message, code, code_message, decode, decode_message, shelves, Bench, Call, MessageBench,
    ReportBench, ShelfBench,
};
use peer::report_cases::Add;
use peer::rng::Rng;
use std::cell::RefCell;
use std::time::Instant;

extern "C" {
    fn atexit(at_end: extern "C" fn()) -> i32;
    fn LLVMFuzzerMutate(bytes: *mut u8, length: usize, room: usize) -> usize;
    fn blocks_told(all: &mut usize, of_them: &mut usize);
}

/// The benches, and how many cases they had since when.
struct Run {
    bench: Bench<'static>,
    messages: MessageBench<'static>,
    shelves: ShelfBench<'static>,
    /// Every reading is counted into the report that the one before it left, too.
    reports: ReportBench<'static>,
    report: Vec<u8>,
    cases: u64,
    begun: Instant,
}

thread_local! {
    // Leaked, so that it is still there at exit.
    static RUN: &'static RefCell<Run> = Box::leak(Box::new(RefCell::new(begin())));
}

fn begin() -> Run {
    // SAFETY: `end` is a function for the whole run, and what it looks at is never freed.
    unsafe { atexit(end) };
    let library: &'static proved::Library = Box::leak(Box::default());
    let mut bench = Bench::new(library, 1);
    bench.begin_part("fuzz");
    Run {
        bench,
        messages: MessageBench::new(library, 1),
        shelves: ShelfBench::new(library, 1),
        reports: ReportBench::new(library, 1),
        report: vec![0; bim::REPORT],
        cases: 0,
        begun: Instant::now(),
    }
}

extern "C" fn end() {
    RUN.with(|run| tell(&run.borrow()));
}

fn differing(run: &Run) -> u64 {
    run.bench.differing() + run.messages.differing() + run.shelves.differing() + run.reports.differing()
}

fn tell(run: &Run) {
    let seconds = run.begun.elapsed().as_secs_f64();
    let (mut all, mut reached) = (0, 0);
    // SAFETY: blocks.c writes both counts and keeps neither.
    unsafe { blocks_told(&mut all, &mut reached) };
    run.bench.report_answers();
    run.messages.report_answers();
    run.shelves.report_answers();
    println!("fuzz: {reached} of {all} blocks of the proved code reached");
    println!(
        "fuzz: {} cases, {} proved calls, {seconds:.0} s, {:.0} cases per second, {} differences",
        run.cases,
        run.bench.calls() + run.messages.calls() + run.shelves.calls(),
        run.cases as f64 / seconds,
        differing(run)
    );
}

/// What libFuzzer calls with each input.
#[no_mangle]
pub extern "C" fn LLVMFuzzerTestOneInput(bytes: *const u8, length: usize) -> i32 {
    // SAFETY: libFuzzer lends `length` bytes for the time of this call; of 0 bytes none are looked at.
    let input = if length == 0 { &[] } else { unsafe { std::slice::from_raw_parts(bytes, length) } };
    RUN.with(|run| {
        let mut run = run.borrow_mut();
        run.cases += 1;
        match (decode_message(input), shelves::decode(input)) {
            (Some(case), _) => drop(run.messages.ask(&case)),
            (_, Some(case)) => drop(run.shelves.ask("fuzz", &case)),
            _ => {
                let case = decode(input);
                ask(&mut run.bench, &case);
                if let (Call::Read, [table, payload]) = (case.call, &case.inputs[..]) {
                    let report = std::mem::take(&mut run.report);
                    let add = Add {
                        table: table.clone(),
                        party: case.party,
                        root: case.root,
                        payload: payload.clone(),
                        report,
                    };
                    run.report = run.reports.ask(&add).1;
                }
            }
        }
        if differing(&run) > 0 {
            run.bench.report();
            run.messages.report();
            run.shelves.report(true);
            run.reports.report();
            tell(&run);
            std::process::abort();
        }
    });
    0
}

/// What libFuzzer calls for a new input: now and then its own change of the bytes, else one of the case.
///
/// # Safety
///
/// `bytes` are `room` bytes, of which `length` are an input.
#[no_mangle]
pub unsafe extern "C" fn LLVMFuzzerCustomMutator(bytes: *mut u8, length: usize, room: usize, seed: u32) -> usize {
    let mut rng = Rng::new(u64::from(seed));
    let mut coded = vec![];
    if !rng.one_in(3) {
        let input = std::slice::from_raw_parts(bytes, length);
        coded = match (decode_message(input), shelves::decode(input)) {
            (Some(mut case), _) => {
                change_message(&mut rng, &mut case);
                code_message(&case)
            }
            (_, Some(mut case)) => {
                shelves::change(&mut rng, &mut case);
                shelves::code(&case).unwrap_or_default()
            }
            _ => {
                let mut case = decode(input);
                change(&mut rng, &mut case);
                code(&case)
            }
        };
    }
    if coded.is_empty() || coded.len() > room {
        return LLVMFuzzerMutate(bytes, length, room);
    }
    std::slice::from_raw_parts_mut(bytes, coded.len()).copy_from_slice(&coded);
    coded.len()
}
