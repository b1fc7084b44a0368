//! `bim_report_add` against `report`, in buffers of junk between guards, and what the request promises of the reports that it leaves: days of
//! payloads from a fresh report, every number that an addition moves brought to both sides of 2^64, and any bytes as a report.

use super::bench::Lent;
use crate::bim;
use crate::call::{Call, READER};
use crate::cases;
use crate::gen::{damage_payload, damage_table, edge_party, let_go, noise, table_and_sample};
use crate::model::{self, Reading};
use crate::report::{self, bytes_of, numbers_of, ANSWERED, FIRST_LINE, LINE, MODE, OTHER, PADDING, STOPPED, TOTAL};
use crate::report_cases::{self, Add};
use crate::rng::Rng;
use crate::tally::{Numbers, Tally};
use crate::words::{big_endian, hex, words_of};
use std::collections::HashMap;
use std::hint::black_box;
use std::sync::OnceLock;

/// The C call of a report, with its buffers as slices.
pub trait ReportCalls {
    /// `bim_report_add`.
    fn report_add(&self, table: &[u8], party: u32, root: (u32, u32), payload: &[u8], report: &mut [u8]) -> u32;
}

/// The peer's own call, which judges the others.
pub struct ReportJudge;

impl ReportCalls for ReportJudge {
    fn report_add(&self, table: &[u8], party: u32, root: (u32, u32), payload: &[u8], report: &mut [u8]) -> u32 {
        report::add(table, party, root.0, root.1, payload, report)
    }
}

const ADD: &str = "bim_report_add";
/// What it can answer: what a reading in the largest rooms can, and 24.
fn numbers() -> &'static [u32] {
    static NUMBERS: OnceLock<Vec<u32>> = OnceLock::new();
    NUMBERS.get_or_init(|| READER.into_iter().filter(|&number| number != bim::TEXT_ROOM).collect())
}

/// The page's theorems, in its words.
const PROMISES: [&str; 6] = [
    "columns add up to 8 times the bytes of the accepted payloads",
    "answers are counted by number",
    "each line holds what it is called, and other the rest",
    "stopped exactly where a sum passes, and else as before",
    "once stopped, nothing changes",
    "where the lines are full, other has the rest",
];

/// A name's seen, own and blanked.
type Row = [u128; 3];

/// What payloads come to, told from the trees of their lists: an element's own bits are its bits less those of its child elements.
#[derive(Clone, Default)]
struct Ledger {
    /// The names in order of first sight.
    order: Vec<u32>,
    rows: HashMap<u32, Row>,
    bytes: u128,
    padding: u128,
    answered: HashMap<u32, u128>,
}

impl Ledger {
    /// Takes up a payload, by what the model, which shares no code with the reader, says of it.
    fn take(&mut self, add: &Add) -> u32 {
        let table = words_of(&add.table);
        let (name, of_type) = add.root;
        let told = model::read(&table, add.party, name, of_type, &add.payload, bim::MOST_EVENTS, bim::MOST_PAYLOAD);
        let number = match told.reading {
            Reading::Accepted { events, bits, .. } => {
                self.bytes += add.payload.len() as u128;
                self.padding += (8 * add.payload.len() - bits) as u128;
                assert_eq!(self.element(&events).1, events.len(), "a list is one element");
                bim::ACCEPTED
            }
            Reading::Refused { number, .. } => number,
        };
        *self.answered.entry(number).or_default() += 1;
        number
    }

    fn row(&mut self, name: u32) -> &mut Row {
        if !self.rows.contains_key(&name) {
            self.order.push(name);
        }
        self.rows.entry(name).or_default()
    }

    /// The element that these events begin with: its bits, and how many events it has.
    fn element(&mut self, events: &[[u32; 4]]) -> (u128, usize) {
        let name = events[0][1];
        self.row(name)[0] += 1;
        if events[0][0] == bim::KIND_BLANK {
            let bits = u128::from(events[0][3]);
            self.row(name)[2] += bits;
            return (bits, 1);
        }
        let (mut all, mut inside, mut at) = (u128::from(events[0][3]), 0, 1);
        while events[at][0] != bim::KIND_END {
            if [bim::KIND_START, bim::KIND_BLANK].contains(&events[at][0]) {
                let (bits, count) = self.element(&events[at..]);
                (all, inside, at) = (all + bits, inside + bits, at + count);
            } else {
                all += u128::from(events[at][3]);
                at += 1;
            }
        }
        self.row(name)[1] += all - inside;
        (all, at + 1)
    }
}

/// The calls on trial, and what they answered so far.
pub struct ReportBench<'a> {
    calls: &'a dyn ReportCalls,
    junk: Rng,
    tally: Tally,
    cases: u64,
    /// How often each promise was held of a report.
    held: [u64; PROMISES.len()],
    smallest: Option<Add>,
    /// Whether the cases are too few to meet every number.
    sample: bool,
}

/// The kinds of a round.
const KINDS: usize = 7;

/// The named cases, then at least `cases` seeded calls; a sample has no named ones, and may miss numbers.
pub fn run(calls: &dyn ReportCalls, cases: u64, seed: u64, sample: bool) -> ReportBench<'_> {
    let mut bench = ReportBench { sample, ..ReportBench::new(calls, seed) };
    if !sample {
        bench.named();
    }
    let mut rng = Rng::new(seed.wrapping_mul(4).wrapping_add(1));
    // Each kind of round once, so that few cases meet every promise, too.
    (0..KINDS).for_each(|kind| bench.round(&mut rng, kind));
    while bench.cases < cases {
        let kind = rng.below(KINDS);
        bench.round(&mut rng, kind);
    }
    bench
}

impl<'a> ReportBench<'a> {
    /// Nothing asked yet.
    pub fn new(calls: &'a dyn ReportCalls, seed: u64) -> Self {
        let junk = Rng::new(!seed);
        ReportBench {
            calls,
            junk,
            tally: Tally::default(),
            cases: 0,
            held: [0; PROMISES.len()],
            smallest: None,
            sample: false,
        }
    }

    /// The differences found.
    pub fn differing(&self) -> u64 {
        self.tally.differing()
    }

    /// The vectors, and every named reading as an addition to a fresh report.
    pub fn named(&mut self) {
        for case in report_cases::all() {
            let (number, now) = self.ask(&case.add);
            if (number, &now) != (case.number, &case.now) {
                self.differ(&case.add, format!("{}: otherwise than by hand", case.name));
            }
        }
        for case in cases::all() {
            if let Call::Read(read) = &case.call {
                let table = big_endian(&read.table);
                let (payload, report) = (read.payload.clone(), vec![0; bim::REPORT]);
                self.ask(&Add { table, party: read.party, root: read.root, payload, report });
            }
        }
    }

    /// Asks both, in buffers of junk between guards, and keeps a difference. Gives what the calls on trial answered and left.
    pub fn ask(&mut self, add: &Add) -> (u32, Vec<u8>) {
        let given = [&add.table, &add.payload];
        let mut inputs = given.map(|bytes| Lent::holding(&mut self.junk, bytes));
        let mut report = Lent::holding(&mut self.junk, &add.report);
        let number = self.calls.report_add(inputs[0].lent(), add.party, add.root, inputs[1].lent(), report.lent_mut());
        black_box((&mut inputs, &mut report));
        let beside = inputs.iter().chain([&report]).any(|lent| !lent.guards_stand());
        let changed = inputs.iter().zip(given).any(|(lent, bytes)| lent.lent() != bytes);
        let mut expected = add.report.clone();
        let said = ReportJudge.report_add(&add.table, add.party, add.root, &add.payload, &mut expected);
        self.cases += 1;
        self.tally.count(ADD, said);
        let now = report.lent().to_vec();
        if number != said || now != expected || beside || changed {
            let what = format!(
                "{number}, the peer's {said}; {}; beside the buffers {}, inputs {}",
                numbers_apart(&now, &expected),
                if beside { "changed" } else { "as it was" },
                if changed { "changed" } else { "as they were" },
            );
            self.differ(add, what);
        }
        (number, now)
    }

    fn differ(&mut self, add: &Add, what: String) {
        self.tally.differ(|| format!("{what}: {}", shown(add)));
        let size =
            |add: &Add| (add.table.len() + add.payload.len(), add.report.iter().filter(|&&byte| byte != 0).count());
        if self.smallest.as_ref().is_none_or(|smallest| size(add) < size(smallest)) {
            self.smallest = Some(add.clone());
        }
    }

    fn hold(&mut self, add: &Add, promise: usize, good: bool, what: impl FnOnce() -> String) {
        self.held[promise] += 1;
        if !good {
            self.differ(add, format!("NOT SO: {}: {}", PROMISES[promise], what()));
        }
    }

    /// One seeded round, of this kind.
    fn round(&mut self, rng: &mut Rng, kind: usize) {
        match kind {
            0 => self.day(rng),
            1 => self.full_day(rng),
            2 => self.walls(rng),
            3 => self.any_reports(rng),
            4 => self.lines_as_they_come(rng),
            5 => self.other_sizes(rng),
            _ => self.stopped(rng),
        }
    }

    /// A day's payloads from a fresh report: theorems (a) and (b).
    fn day(&mut self, rng: &mut Rng) {
        let mut report = vec![0; bim::REPORT];
        let mut ledger = Ledger::default();
        for _ in 0..rng.within(1, 8) {
            let add = Add { report, ..any_add(rng) };
            let due = ledger.take(&add);
            let (number, now) = self.ask(&add);
            self.hold(&add, 1, number == due, || format!("{number} where {due} is due"));
            self.hold_day(&add, &ledger, &now);
            report = now;
        }
    }

    /// The same where some lines are taken already, up to all of them: what finds no line goes to *other*.
    fn full_day(&mut self, rng: &mut Rng) {
        let taken = rng.pick(&[bim::REPORT_LINES, bim::REPORT_LINES - 1, bim::REPORT_LINES - 3, bim::REPORT_LINES - 7]);
        let mut numbers = vec![0; bim::REPORT_NUMBERS];
        for line in 0..taken {
            // No root or row has a name over 65,535.
            numbers[FIRST_LINE + LINE * line..][..2].copy_from_slice(&[65_536 + line as u64, 1 + rng.below(9) as u64]);
        }
        let (before, mut report) = (numbers.clone(), bytes_of(&numbers));
        let mut ledger = Ledger::default();
        for _ in 0..rng.within(1, 4) {
            let add = Add { report, ..any_add(rng) };
            ledger.take(&add);
            let (_, now) = self.ask(&add);
            let left = bim::REPORT_LINES - taken;
            let mut due = numbers.clone();
            ledger_lines(&ledger, &mut due[FIRST_LINE + LINE * taken..], left);
            due[OTHER + 1..OTHER + LINE].copy_from_slice(&rest_of(&ledger, left));
            let got = numbers_of(&now);
            let good = got.len() == due.len()
                && got[OTHER..] == due[OTHER..]
                && got[FIRST_LINE..][..LINE * taken] == before[FIRST_LINE..][..LINE * taken];
            self.hold(&add, 5, good, || numbers_apart(&now, &bytes_of(&due)));
            report = now;
        }
    }

    /// Of a report that began fresh: the sums, the counts, the lines.
    fn hold_day(&mut self, add: &Add, ledger: &Ledger, report: &[u8]) {
        let numbers = numbers_of(report);
        if numbers.len() != bim::REPORT_NUMBERS {
            return self.differ(add, "no report".to_string());
        }
        let lines = || numbers[FIRST_LINE..].chunks_exact(LINE).chain([&numbers[OTHER..FIRST_LINE]]);
        let bits: u128 = lines().map(|line| u128::from(line[2]) + u128::from(line[3])).sum();
        let sum = bits + u128::from(numbers[MODE]) + u128::from(numbers[PADDING]);
        let good = [sum, numbers[TOTAL].into()] == [8 * ledger.bytes; 2];
        self.hold(add, 0, good, || format!("{sum} and {} where {} bytes are", numbers[TOTAL], ledger.bytes));
        let counted = |number: u32| ledger.answered.get(&number).copied().unwrap_or(0);
        let good = (0..64).all(|number| u128::from(numbers[ANSWERED + number as usize]) == counted(number))
            && [MODE, PADDING].map(|index| u128::from(numbers[index])) == [8 * counted(0), ledger.padding];
        self.hold(add, 1, good, || format!("{:?}", &numbers[..OTHER]));
        let mut due = vec![0; bim::REPORT_NUMBERS - FIRST_LINE];
        ledger_lines(ledger, &mut due, bim::REPORT_LINES);
        let good = numbers[FIRST_LINE..] == due && numbers[OTHER..FIRST_LINE] == [0; LINE];
        self.hold(add, 2, good, || format!("{:?} where {:?}", &numbers[OTHER..][..40], &due[..40]));
    }

    /// Every number that an addition moves, brought to both sides of 2^64: theorem (c).
    fn walls(&mut self, rng: &mut Rng) {
        let mut add = any_add(rng);
        if rng.one_in(2) {
            add.report = some_lines(rng);
        }
        let (_, now) = self.ask(&add);
        let (before, after) = (numbers_of(&add.report), numbers_of(&now));
        if before.len() != after.len() || before[STOPPED] != 0 || after[STOPPED] != 0 {
            return;
        }
        // A line's name does not grow, and with another seen the line would be another's.
        let is_sum = |index: usize| {
            index < OTHER || index >= OTHER && index % LINE != 0 && before[index - index % LINE + 1] != 0
        };
        let moved: Vec<_> = (0..before.len()).filter(|&index| is_sum(index) && before[index] != after[index]).collect();
        for index in moved {
            let more = after[index].wrapping_sub(before[index]);
            for less in [0, 1, rng.step() % 4] {
                // Comes to 2^64 - less.
                let mut numbers = before.clone();
                numbers[index] = less.wrapping_add(more).wrapping_neg();
                let add = Add { report: bytes_of(&numbers), ..add.clone() };
                let (_, now) = self.ask(&add);
                let mut due = if less == 0 { numbers.clone() } else { after.clone() };
                if less == 0 {
                    due[STOPPED] = 1;
                } else {
                    due[index] = numbers[index] + more;
                }
                let due = bytes_of(&due);
                self.hold(&add, 3, now == due, || format!("number {index}: {}", numbers_apart(&now, &due)));
                if less == 0 {
                    let later = Add { report: now.clone(), ..any_add(rng) };
                    let (_, still) = self.ask(&later);
                    self.hold(&later, 4, still == now, || numbers_apart(&still, &now));
                }
            }
        }
    }

    /// Any bytes as a report.
    fn any_reports(&mut self, rng: &mut Rng) {
        let add = any_add(rng);
        for kind in 0..4 {
            let mut numbers: Vec<u64> = match kind {
                0 => (0..bim::REPORT_NUMBERS).map(|_| rng.step()).collect(),
                1 => (0..bim::REPORT_NUMBERS).map(|_| rng.step() % 4).collect(),
                2 => vec![u64::MAX; bim::REPORT_NUMBERS],
                _ => (0..bim::REPORT_NUMBERS).map(|_| near_wall(rng)).collect(),
            };
            if !rng.one_in(4) {
                numbers[STOPPED] = 0;
            }
            self.ask(&Add { report: bytes_of(&numbers), ..add.clone() });
        }
    }

    /// Lines of the names that come, of names alike in their low bits, twice, with holes between them and leftovers in the holes.
    fn lines_as_they_come(&mut self, rng: &mut Rng) {
        let add = any_add(rng);
        let (_, now) = self.ask(&add);
        let names: Vec<u64> = numbers_of(&now).into_iter().skip(FIRST_LINE).step_by(LINE).take(8).collect();
        for _ in 0..4 {
            let mut numbers = vec![0; bim::REPORT_NUMBERS];
            let last = rng.pick(&[6, 20, 100, bim::REPORT_LINES]);
            for line in 0..last {
                let name = names.get(rng.below(8)).copied().unwrap_or(0);
                let name = match rng.below(6) {
                    0 | 1 => name,
                    2 => name.wrapping_add(1 << rng.pick(&[16, 32, 48, 63])),
                    _ => rng.step() % 70_000,
                };
                let seen = if rng.one_in(3) { 0 } else { 1 + rng.step() % 3 };
                let row = [name, seen, rng.step() % 100, rng.step() % 100];
                numbers[FIRST_LINE + LINE * line..][..LINE].copy_from_slice(&row);
            }
            // A hole anywhere behind full lines, too.
            if rng.one_in(2) {
                numbers[FIRST_LINE + 1..].iter_mut().step_by(LINE).take(last).for_each(|seen| *seen = 1);
            }
            self.ask(&Add { report: bytes_of(&numbers), ..add.clone() });
        }
    }

    /// Reports of other sizes are zeros behind it, whatever else is asked.
    fn other_sizes(&mut self, rng: &mut Rng) {
        let add = any_add(rng);
        let any = rng.below(40_000);
        for size in [
            0,
            1,
            8,
            bim::AREA,
            bim::REPORT - 8,
            bim::REPORT - 1,
            bim::REPORT + 1,
            bim::REPORT + 8,
            2 * bim::REPORT,
            any,
        ] {
            self.ask(&Add { report: vec![rng.word() as u8 | 1; size], ..add.clone() });
        }
    }

    /// A report that has stopped, by any number, stays as it is.
    fn stopped(&mut self, rng: &mut Rng) {
        for _ in 0..4 {
            let mut numbers: Vec<u64> = numbers_of(&some_lines(rng));
            numbers[STOPPED] = rng.pick(&[1, 2, 255, 256, 1 << 32, 1 << 63, u64::MAX, 1 << rng.clone().below(64)]);
            let add = Add { report: bytes_of(&numbers), ..any_add(rng) };
            let (_, now) = self.ask(&add);
            self.hold(&add, 4, now == add.report, || numbers_apart(&now, &add.report));
        }
    }

    /// Prints all; true where there is no difference, every number was met and every promise held of some report.
    pub fn report(&self) -> bool {
        for (call, calls, numbers) in self.tally.rows() {
            println!("{call}: {calls} calls   {numbers}");
        }
        let needed: [Numbers; 1] = [(ADD, numbers())];
        let mut good = self.sample || self.tally.has_met(&needed);
        for (promise, times) in PROMISES.iter().zip(self.held) {
            println!("{promise}: {times} times");
            good &= times > 0;
        }
        println!("reports: {} calls in all, {} differences", self.cases, self.tally.differing());
        if let Some(add) = &self.smallest {
            println!("SMALLEST: {}", shown(add));
        }
        self.tally.shows_none() && good
    }
}

/// The first lines of a ledger, put one behind the other.
fn ledger_lines(ledger: &Ledger, numbers: &mut [u64], lines: usize) {
    for (line, name) in numbers.chunks_exact_mut(LINE).zip(&ledger.order).take(lines) {
        let [seen, own, blanked] = ledger.rows[name].map(|sum| sum as u64);
        line.copy_from_slice(&[(*name).into(), seen, own, blanked]);
    }
}

/// What the names behind the first `lines` come to.
fn rest_of(ledger: &Ledger, lines: usize) -> [u64; 3] {
    let rest = ledger.order.iter().skip(lines).map(|name| ledger.rows[name]);
    rest.fold([0; 3], |sums, row| std::array::from_fn(|index| sums[index] + row[index] as u64))
}

/// A payload to a fresh report: whole, with Blanks, damaged, noise, by any party, of any root and table.
fn any_add(rng: &mut Rng) -> Add {
    let (mut table, mut sample) = table_and_sample(rng, 0);
    match rng.below(8) {
        0 | 1 => table = let_go(rng, sample.party, &table, 2),
        2 => sample.pad(rng),
        _ => {}
    }
    let (mut payload, mut party, mut root) = (sample.payload(), sample.party, sample.root);
    match rng.below(12) {
        0 | 1 => damage_payload(rng, &mut payload),
        2 => payload = noise(rng),
        3 => party = edge_party(rng),
        4 => root.1 = rng.below(table[1] as usize + 1) as u32,
        5 => root.0 = rng.pick(&[0, 1, 65_535, 65_536, u32::MAX]),
        6 => damage_table(rng, &mut table),
        _ => {}
    }
    // Now and then the root is named as one of its elements is.
    if rng.one_in(4) {
        if let Some(event) = sample.events.iter().find(|event| event[0] == bim::KIND_START && event[1] != root.0) {
            root.0 = event[1];
        }
    }
    Add { table: big_endian(&table), party, root, payload, report: vec![0; bim::REPORT] }
}

/// A report with some lines and small numbers, not stopped.
fn some_lines(rng: &mut Rng) -> Vec<u8> {
    let mut numbers = vec![0; bim::REPORT_NUMBERS];
    numbers[1..OTHER].fill_with(|| rng.step() % 1_000);
    for line in 0..rng.pick(&[0, 1, 5, 1_020, bim::REPORT_LINES]) {
        let row = [rng.step() % 65_536, 1 + rng.step() % 9, rng.step() % 1_000, rng.step() % 1_000];
        numbers[FIRST_LINE + LINE * line..][..LINE].copy_from_slice(&row);
    }
    bytes_of(&numbers)
}

/// 0, or a number around which sums pass 64 bits.
fn near_wall(rng: &mut Rng) -> u64 {
    match rng.below(4) {
        0 => (rng.step() % 200).wrapping_neg(),
        1 => rng.step() % 200,
        _ => 0,
    }
}

/// The first numbers in which two reports differ.
fn numbers_apart(one: &[u8], other: &[u8]) -> String {
    if one == other {
        return "one report".to_string();
    }
    let (one, other) = (numbers_of(one), numbers_of(other));
    let apart = one.iter().zip(&other).enumerate().filter(|(_, (one, other))| one != other).take(6);
    let apart: Vec<_> = apart.map(|(index, (one, other))| format!("{index}: {one} where {other}")).collect();
    format!("numbers {}", apart.join(", "))
}

/// The whole input, of a report the numbers that are not 0.
fn shown(add: &Add) -> String {
    let numbers: Vec<_> = numbers_of(&add.report).into_iter().enumerate().filter(|&(_, number)| number != 0).collect();
    let Add { table, party, root, payload, report } = add;
    format!(
        "party {party} root {} {} table {:?} payload {} report of {} bytes, of its numbers {:?}{}",
        root.0,
        root.1,
        words_of(table),
        hex(payload),
        report.len(),
        &numbers[..numbers.len().min(24)],
        if numbers.len() > 24 { " .." } else { "" }
    )
}
