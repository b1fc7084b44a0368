//! The examples of the request's page as literals, and every vector of examples/reports.txt.

mod common;

use common::{worked_table, WORKED_PAYLOAD};
use peer::report::{add, bytes_of, numbers_of, FIRST_LINE, LINE};
use peer::words::big_endian;
use peer::{bim, report_cases};

/// The numbers that are not 0, by index.
fn not_zero(report: &[u8]) -> Vec<(usize, u64)> {
    numbers_of(report).into_iter().enumerate().filter(|&(_, number)| number != 0).collect()
}

/// Lines of the page as numbers by index.
fn with_lines(numbers: &[(usize, u64)], lines: &[[u64; 4]]) -> Vec<(usize, u64)> {
    let places = lines.iter().flatten().enumerate().map(|(index, &number)| (FIRST_LINE + index, number));
    numbers.iter().copied().chain(places).filter(|&(_, number)| number != 0).collect()
}

#[test]
fn the_five_additions_of_the_page() {
    let (held, boolean) = (worked_table(), vec![1, 1, 0, 0, 1, 1, 0, 0, 0, 0, 0]);
    let mut not_held = held.clone();
    not_held[4 + 7 * 3] = 0;
    let mut last = WORKED_PAYLOAD;
    last[8] = 0x21;
    let mut report = vec![0; bim::REPORT];
    let mut then = |table: &[u32], root: (u32, u32), payload: &[u8]| {
        let number = add(&big_endian(table), 0, root.0, root.1, payload, &mut report);
        (number, not_zero(&report))
    };
    let one = with_lines(&[(1, 72), (2, 8), (3, 4), (4, 1)], &[[10, 1, 17, 0], [11, 1, 31, 0], [12, 2, 12, 0]]);
    assert_eq!(then(&held, (10, 0), &WORKED_PAYLOAD), (0, one));
    let lines = [[10, 2, 34, 0], [11, 2, 31, 31], [12, 4, 24, 0], [1, 1, 1, 0]];
    let sums = [(1, 144), (2, 16), (3, 8), (4, 2)];
    assert_eq!(then(&not_held, (10, 0), &WORKED_PAYLOAD), (0, with_lines(&sums, &lines[..3])));
    let sums = [(1, 144), (2, 16), (3, 8), (4, 2), (21, 1)];
    assert_eq!(then(&held, (10, 0), &last), (17, with_lines(&sums, &lines[..3])));
    let sums = [(1, 144), (2, 16), (3, 8), (4, 2), (6, 1), (21, 1)];
    assert_eq!(then(&held, (10, 4), &WORKED_PAYLOAD), (2, with_lines(&sums, &lines[..3])));
    let sums = [(1, 160), (2, 24), (3, 15), (4, 3), (6, 1), (21, 1)];
    assert_eq!(then(&boolean, (1, 0), &[0x0f, 0x80]), (0, with_lines(&sums, &lines)));
}

#[test]
fn the_other_rows_of_the_page() {
    let table = big_endian(&worked_table());
    let asked = |of_type: u32, before: &[u64]| {
        let mut report = bytes_of(before);
        let number = add(&table, 0, 10, of_type, &WORKED_PAYLOAD, &mut report);
        (number, numbers_of(&report))
    };
    // Stopped, and then every later addition leaves the same report.
    for (index, number, of_type, answer) in [(1, 72u64.wrapping_neg(), 0, 0), (6, u64::MAX, 4, 2)] {
        let mut numbers = vec![0; bim::REPORT_NUMBERS];
        numbers[index] = number;
        let (first, stopped) = asked(of_type, &numbers);
        numbers[0] = 1;
        assert_eq!((first, &stopped), (answer, &numbers));
        assert_eq!(asked(0, &stopped), (0, stopped.clone()));
        assert_eq!(asked(4, &stopped), (2, stopped));
    }
    for lines in [bim::REPORT_LINES, bim::REPORT_LINES - 1] {
        let mut numbers = vec![0; bim::REPORT_NUMBERS];
        for line in 0..lines {
            numbers[FIRST_LINE + LINE * line..][..2].copy_from_slice(&[2_000 + line as u64, 1]);
        }
        let (number, now) = asked(0, &numbers);
        numbers[1..5].copy_from_slice(&[72, 8, 4, 1]);
        if lines == bim::REPORT_LINES {
            numbers[68..72].copy_from_slice(&[0, 4, 60, 0]);
        } else {
            numbers[4164..].copy_from_slice(&[10, 1, 17, 0]);
            numbers[68..72].copy_from_slice(&[0, 3, 43, 0]);
        }
        assert_eq!((number, now), (0, numbers));
    }
    let mut short = vec![0xdd; 33_343];
    assert_eq!(add(&table, 0, 10, 0, &WORKED_PAYLOAD, &mut short), 24);
    assert!(short.iter().all(|&byte| byte == 0));
}

#[test]
fn every_vector() {
    let cases = report_cases::all();
    assert!(cases.len() >= 50, "{} vectors", cases.len());
    for case in cases {
        let report_cases::Add { table, party, root, payload, report } = &case.add;
        let mut now = report.clone();
        let number = add(table, *party, root.0, root.1, payload, &mut now);
        assert_eq!(number, case.number, "{}", case.name);
        if now != case.now {
            let [now, due] = [&now, &case.now].map(|bytes| not_zero(bytes));
            panic!("{}: {:?} where {:?} is due", case.name, &now[..now.len().min(30)], &due[..due.len().min(30)]);
        }
    }
}
