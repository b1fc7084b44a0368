//! A day of guides counted into a report against reading them, by the proved calls: request 11 asks for at most 1.3 times.

use crate::proved::Library;
use peer::bim;
use peer::calls::{Calls, Case, Reading, ReportCalls};
use peer::speed::fifty_guides;
use std::hint::black_box;
use std::time::Instant;

const ROUNDS: usize = 51;
/// What the request asks for.
const MOST: f64 = 1.3;

/// Prints the page's part; false where adding takes longer than it may.
pub fn print() -> bool {
    let library = Library::default();
    let cases: Vec<_> = fifty_guides().iter().map(|input| input.reading(&input.tables()[0])).collect();
    let bytes: usize = cases.iter().map(|case| case.inputs[1].len()).sum();
    // A receiver lends the same buffers again and again.
    let mut rooms = [bim::EVENT * bim::MOST_EVENTS, bim::MOST_PAYLOAD, bim::AREA].map(|room| vec![0; room]);
    let mut report = vec![0; bim::REPORT];
    let (mut reading, mut adding) = (vec![], vec![]);
    for _ in 0..ROUNDS {
        reading.push(timed(|| cases.iter().for_each(|case| read(&library, case, &mut rooms))));
        report.fill(0);
        adding.push(timed(|| cases.iter().for_each(|case| add(&library, case, &mut report))));
    }
    let [read, added] = [reading, adding].map(|mut times: Vec<f64>| {
        times.sort_by(f64::total_cmp);
        times[ROUNDS / 2]
    });
    println!("\n## Where the bits go\n");
    println!(
        "| payloads | bytes | read, us | counted into a report, us | ratio | at most |\n|---|---|---|---|---|---|"
    );
    println!("| {} guides | {bytes} | {read:.0} | {added:.0} | {:.2} | {MOST} |", cases.len(), added / read);
    added / read <= MOST
}

fn timed(work: impl FnOnce()) -> f64 {
    let begun = Instant::now();
    work();
    begun.elapsed().as_nanos() as f64 / 1000.0
}

/// Reads as the report's call does, in the largest rooms.
fn read(library: &Library, case: &Case, rooms: &mut [Vec<u8>; 3]) {
    let [events, texts, area] = rooms;
    let (table, payload) = (&case.inputs[0], &case.inputs[1]);
    let number = library.read(Reading { table, party: 0, root: case.root, payload, events, texts, area });
    assert_eq!(number, bim::ACCEPTED);
    black_box(rooms);
}

fn add(library: &Library, case: &Case, report: &mut [u8]) {
    assert_eq!(library.report_add(&case.inputs[0], 0, case.root, &case.inputs[1], report), bim::ACCEPTED);
    black_box(report);
}
