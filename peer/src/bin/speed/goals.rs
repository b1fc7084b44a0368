//! How many instructions a proved call may take for one of its rival's: the goals, and the guard that the gate holds every row to.

use crate::counts;
use crate::nanopb::Nanopb;
use crate::sides::{Buffers, Side};
use crate::{compared, Item};
use peer::calls::Call::{self, Read, Write};
use std::hint::black_box;
use std::process::ExitCode;
use Rival::{Nanopb as OfNanopb, Peer};

/// Whom a proved call is compared with.
#[derive(Clone, Copy, PartialEq, Eq)]
pub enum Rival {
    /// The peer's fast call, on the same bytes.
    Peer,
    /// nanopb, on the same listing.
    Nanopb,
}

/// What the ratio of a row shall be at most, and what it is held to until it is.
pub struct Goal {
    payload: &'static str,
    words: usize,
    call: Call,
    rival: Rival,
    most: f64,
    reached: Option<f64>,
}

/// A row may pass what it is guarded at by so much: what compilers and processors move.
const SLACK: f64 = 1.03;

/// One line a row: payload, table words, call, rival, goal. A row that does not reach its goal yet is guarded at the ratio that it has reached;
/// docs/SPEED.md says why. `speed goals` prints the new line of a row that could be guarded lower.
#[rustfmt::skip]
const GOALS: [Goal; 20] = [
    goal("empty root", 11, Read, Peer, 1.3),
    goal("empty root", 11, Write, Peer, 1.3).reached(1.34),
    goal("empty root", 8964, Read, Peer, 1.1),
    goal("empty root", 8964, Write, Peer, 1.1),
    goal("worked example", 51, Read, Peer, 1.2).reached(1.35),
    goal("worked example", 51, Write, Peer, 1.2),
    goal("guide of 50 programmes", 132, Read, Peer, 1.0).reached(1.13),
    goal("guide of 50 programmes", 132, Write, Peer, 1.0),
    goal("texts, 8,192 bytes", 36, Read, Peer, 1.0),
    goal("texts, 8,192 bytes", 36, Write, Peer, 1.0),
    goal("texts in ASCII, 8,192 bytes", 36, Read, Peer, 1.0),
    goal("texts in ASCII, 8,192 bytes", 36, Write, Peer, 1.0),
    goal("64 rows open", 704, Read, Peer, 1.5).reached(2.29),
    goal("64 rows open", 704, Write, Peer, 1.5).reached(1.56),
    goal("2,048 events", 36, Read, Peer, 1.2).reached(1.31),
    goal("2,048 events", 36, Write, Peer, 1.0).reached(1.14),
    goal("guide of 50 programmes, refused at the end", 132, Read, Peer, 1.0).reached(1.05),
    goal("guide of 50 programmes, refused at the end", 132, Write, Peer, 1.0),
    goal("guide of 50 programmes", 132, Read, OfNanopb, 1.0),
    goal("guide of 50 programmes", 132, Write, OfNanopb, 1.0),
];

const fn goal(payload: &'static str, words: usize, call: Call, rival: Rival, most: f64) -> Goal {
    Goal { payload, words, call, rival, most, reached: None }
}

impl Goal {
    const fn reached(mut self, ratio: f64) -> Self {
        self.reached = Some(ratio);
        self
    }

    fn guarded_at(&self) -> f64 {
        self.reached.unwrap_or(self.most)
    }

    fn is_of(&self, item: &Item) -> bool {
        (self.payload, self.words, self.call) == (item.name.as_str(), item.words, item.case.call)
    }

    fn name(&self) -> String {
        let (verb, rival) = (verb(self.call), if self.rival == Peer { "peer" } else { "nanopb" });
        format!("{}, {} words, {verb}, {rival}", self.payload, self.words)
    }

    /// Its line in the list, were it guarded at this ratio.
    fn line(&self, ratio: f64) -> String {
        let rival = if self.rival == Peer { "Peer" } else { "OfNanopb" };
        let reached = if ratio > self.most { format!(".reached({ratio:.2})") } else { String::new() };
        format!("    goal({:?}, {}, {:?}, {rival}, {:.1}){reached},", self.payload, self.words, self.call, self.most)
    }
}

/// The goal of a row of the page, if it has one.
pub fn of(item: &Item, rival: Rival) -> Option<f64> {
    GOALS.iter().find(|goal| goal.rival == rival && goal.is_of(item)).map(|goal| goal.most)
}

pub fn verb(call: Call) -> &'static str {
    match call {
        Read => "read",
        Call::WriteLengths => "write, short call",
        _ => "write",
    }
}

/// The rows that have a goal, with what is asked in each, but for those whose rival is not here.
fn rows(items: &[Item], nanopb: bool) -> Vec<(&'static Goal, &Item)> {
    let item_of =
        |goal: &Goal| items.iter().find(|item| goal.is_of(item)).unwrap_or_else(|| panic!("no row: {}", goal.name()));
    let there = |goal: &&Goal| nanopb || goal.rival == Peer;
    GOALS.iter().filter(there).map(|goal| (goal, item_of(goal))).collect()
}

/// Each row's call, asked of the proved side and of its rival once, with a mark behind each.
pub fn make_calls() {
    let items = compared();
    let mut nanopb = Nanopb::of_guide(&items);
    for (goal, item) in rows(&items, nanopb.is_some()) {
        black_box(Buffers::of(&item.case).ask(&item.case, Side::Proved));
        counts::speed_mark();
        match (goal.rival, &mut nanopb) {
            (OfNanopb, Some(nanopb)) => black_box(nanopb.ask(item.case.call)),
            _ => black_box(Buffers::of(&item.case).ask(&item.case, Side::Peer)),
        };
        counts::speed_mark();
    }
}

/// Counts every row that has a goal and prints it; fails where one passes what it is guarded at.
pub fn guard() -> ExitCode {
    let items = compared();
    let nanopb = Nanopb::of_guide(&items);
    let rows = rows(&items, nanopb.is_some());
    rows.iter().for_each(|(_, item)| crate::sides::check(&item.case));
    // Getting nanopb ready has the first mark.
    let ready = usize::from(nanopb.is_some());
    let counts = counts::under_callgrind(&["counts", "goals"], ready + 2 * rows.len());
    let (mut failed, mut lower, mut short) = (vec![], vec![], 0);
    println!("{:>10} {:>10} {:>7} {:>5} {:>8}  row", "proved", "rival", "ratio", "goal", "guarded");
    for ((goal, _), counts) in rows.iter().zip(counts[ready..].as_chunks::<2>().0) {
        let (ratio, guarded) = (counts[0] as f64 / counts[1] as f64, goal.guarded_at());
        println!("{:>10} {:>10} {ratio:>7.3} {:>5.2} {guarded:>8.2}  {}", counts[0], counts[1], goal.most, goal.name());
        short += usize::from(ratio > goal.most);
        if ratio > SLACK * guarded {
            failed.push(format!("FAILED: {}: {ratio:.3}, guarded at {guarded:.2} and 3 %", goal.name()));
        }
        // In hundredths, and never below what was counted.
        let reached = (100.0 * ratio).ceil() / 100.0;
        if goal.reached.is_some() && reached < guarded {
            lower.push(goal.line(reached));
        }
    }
    if nanopb.is_none() {
        println!("SKIPPED: the rows against nanopb, which is not here");
    }
    if !lower.is_empty() {
        println!("could be guarded lower, in peer/src/bin/speed/goals.rs:\n{}", lower.join("\n"));
    }
    failed.iter().for_each(|row| println!("{row}"));
    println!("{} rows: {short} short of their goals, {} past their guard", rows.len(), failed.len());
    ExitCode::from(u8::from(!failed.is_empty()))
}
