//! The page.

use crate::goals::{self, verb, Rival};
use crate::nanopb::Measured;
use crate::{Item, Part};
use peer::calls::Call;
use peer::speed::VALUES;
use std::process::Command;

/// Prints the tables of reading and writing; the rows that fall short of their goals.
pub fn print(items: &[Item], times: &[[f64; 4]], counts: &[[u64; 4]], nanopb: &[Measured]) -> Vec<String> {
    let rows: Vec<_> =
        items.iter().zip(times).zip(counts).map(|((item, times), counts)| (item, times, counts)).collect();
    println!("# The proved C calls against the peer's fast ones\n");
    println!("docs/SPEED.md says how to read it. {}\n", machine());
    let mut short = print_compared(&rows);
    short.extend(print_nanopb(nanopb));
    print_fixed(&rows);
    print_growth(&rows);
    print_dates(&rows);
    short
}

/// A row, and what was measured of it.
type Row<'a> = (&'a Item, &'a [f64; 4], &'a [u64; 4]);

/// The comparison proper.
fn print_compared(rows: &[Row]) -> Vec<String> {
    println!("## Proved against peer\n");
    println!("| payload | bytes, events | table words | call | proved ns | peer ns | ratio | proved instr. | peer instr. | ratio | goal | to the judge: times | instr. |");
    println!("|---|---|---|---|---|---|---|---|---|---|---|---|---|");
    let (mut most, mut short) = ([(0.0, String::new()), (0.0, String::new())], vec![]);
    for (item, times, counts) in rows.iter().filter(|(item, ..)| item.part == Part::Inputs) {
        let ratios = [times[0] / times[1], counts[0] as f64 / counts[1] as f64];
        let goal = goals::of(item, Rival::Peer);
        println!(
            "| {} | {} | {} | {} | {:.0} | {:.0} | {:.2} | {} | {} | {:.2} | {} | {:.2} | {:.2} |",
            item.name,
            item.size,
            item.words,
            verb(item.case.call),
            times[0],
            times[1],
            ratios[0],
            counts[0],
            counts[1],
            ratios[1],
            goal.map_or(String::new(), |goal| format!("{goal:.1}")),
            times[0] / times[3],
            counts[0] as f64 / counts[3] as f64,
        );
        for (most, ratio) in most.iter_mut().zip(ratios) {
            if ratio > most.0 {
                *most = (ratio, row_name(item));
            }
        }
        short.extend(short_of(item, "the peer", ratios[1], goal));
    }
    println!(
        "\nLargest ratio of times {:.2} ({}), of instructions {:.2} ({}).",
        most[0].0, most[0].1, most[1].0, most[1].1
    );
    short
}

/// nanopb on the same listing.
fn print_nanopb(rows: &[Measured]) -> Vec<String> {
    println!("\n## Proved against nanopb, on the same listing\n");
    if rows.is_empty() {
        println!("SKIPPED: nanopb (Debian's `nanopb` and `libnanopb-dev`) is not on this machine.");
        return vec![];
    }
    let version = said("dpkg-query", &["-W", "-f", "${Version}", "libnanopb-dev"]);
    println!("nanopb {version}, Debian's archive as it is (static allocation, no UTF-8 check); examples/nanopb has the messages.\n");
    println!("| payload | BiM bytes, events | nanopb's bytes | call | proved ns | nanopb ns | ratio | proved instr. | nanopb instr. | ratio | goal |");
    println!("|---|---|---|---|---|---|---|---|---|---|---|");
    let mut short = vec![];
    for Measured { item, bytes, times, counts } in rows {
        let (ratio, goal) = (counts[0] as f64 / counts[1] as f64, goals::of(item, Rival::Nanopb));
        println!(
            "| {} | {} | {bytes} | {} | {:.0} | {:.0} | {:.2} | {} | {} | {ratio:.2} | {} |",
            item.name,
            item.size,
            verb(item.case.call),
            times[0],
            times[1],
            times[0] / times[1],
            counts[0],
            counts[1],
            goal.map_or(String::new(), |goal| format!("{goal:.1}")),
        );
        short.extend(short_of(item, "nanopb", ratio, goal));
    }
    short
}

/// A row that falls short of its goal, in words.
fn short_of(item: &Item, rival: &str, ratio: f64, goal: Option<f64>) -> Option<String> {
    let goal = goal.filter(|goal| ratio > *goal)?;
    Some(format!("{}: {ratio:.2} times {rival}'s instructions, the goal is {goal:.1}", row_name(item)))
}

/// The rows that fall short of their goals, which end the page.
pub fn print_short(short: &[String]) {
    println!("\n## Short of the goal\n");
    if short.is_empty() {
        println!("No row.");
    }
    short.iter().for_each(|row| println!("- {row}"));
}

/// Payload, table and call.
pub fn row_name(item: &Item) -> String {
    format!("{}, {} words, {}", item.name, item.words, verb(item.case.call))
}

/// What the smallest calls cost before they do anything.
fn print_fixed(rows: &[Row]) {
    println!("\n## Fixed cost: the smallest call against a plain pass\n");
    println!("The pass clears the same buffers, converts the words of the table (and of a list to be written), and compares each table word once.\n");
    println!("| payload | table words | call | proved ns | pass ns | ratio | proved instr. | pass instr. | ratio | peer instr. / pass |");
    println!("|---|---|---|---|---|---|---|---|---|---|");
    for (item, times, counts) in rows.iter().filter(|(item, ..)| item.part == Part::Inputs).take(8) {
        println!(
            "| {} | {} | {} | {:.0} | {:.0} | {:.2} | {} | {} | {:.2} | {:.2} |",
            item.name,
            item.words,
            verb(item.case.call),
            times[0],
            times[2],
            times[0] / times[2],
            counts[0],
            counts[2],
            counts[0] as f64 / counts[2] as f64,
            counts[1] as f64 / counts[2] as f64
        );
    }
}

/// What one more of each measure costs.
fn print_growth(rows: &[Row]) {
    println!("\n## Growth\n");
    println!("Instructions a unit: how many more than the row above took, for each unit more. Linear growth keeps them level.\n");
    println!("| what grows | call | size | proved ns | proved instr. | a unit | peer instr. | a unit |");
    println!("|---|---|---|---|---|---|---|---|");
    let mut before: Option<(&str, Call, usize, [u64; 4])> = None;
    for (item, times, counts) in rows {
        let Part::Growth(size) = item.part else {
            continue;
        };
        let units = match before {
            Some((name, call, less, than)) if name == item.name && call == item.case.call => {
                let unit = |side: usize| (counts[side] as f64 - than[side] as f64) / (size - less) as f64;
                [format!("{:.1}", unit(0)), format!("{:.1}", unit(1))]
            }
            _ => [String::new(), String::new()],
        };
        println!(
            "| {} | {} | {} | {:.0} | {} | {} | {} | {} |",
            item.name,
            verb(item.case.call),
            item.size,
            times[0],
            counts[0],
            units[0],
            counts[1],
            units[1]
        );
        before = Some((&item.name, item.case.call, size, **counts));
    }
}

/// A value's own instructions are those of a list less those of as many elements without a value; a date's are then told by an unsigned
/// value's.
fn print_dates(rows: &[Row]) {
    println!("\n## Dates against unsigned values\n");
    println!("As many elements each, with the same table but for their type. A value's instructions: a call's less that of the empty elements, for each of them.\n");
    println!("| elements | call | proved instr. | a value | to an unsigned one | the calls | peer instr. | a value | to an unsigned one |");
    println!("|---|---|---|---|---|---|---|---|---|");
    let values: Vec<_> = rows.iter().filter(|(item, ..)| item.part == Part::Values).collect();
    for of_call in values.chunks(4) {
        let [(_, _, empty), (_, _, unsigned), ..] = of_call else {
            return;
        };
        for (item, _, counts) in &of_call[1..] {
            let value = |counts: &[u64; 4], side: usize| counts[side] as f64 - empty[side] as f64;
            let each = |side: usize| value(counts, side) / f64::from(VALUES);
            let ratio = |side: usize| value(counts, side) / value(unsigned, side);
            println!(
                "| {} | {} | {} | {:.1} | {:.2} | {:.2} | {} | {:.1} | {:.2} |",
                item.name,
                verb(item.case.call),
                counts[0],
                each(0),
                ratio(0),
                counts[0] as f64 / unsigned[0] as f64,
                counts[1],
                each(1),
                ratio(1),
            );
        }
    }
}

/// Where and with what this was measured.
fn machine() -> String {
    format!(
        "Machine: {}. {}; {}; commit {} of {}.",
        said("sh", &[concat!(env!("CARGO_MANIFEST_DIR"), "/../dev/machine")]),
        said("rustc", &["--version"]),
        said("valgrind", &["--version"]),
        said("git", &["describe", "--always", "--dirty"]),
        said("git", &["log", "-1", "--format=%cd", "--date=short"]),
    )
}

/// What a program prints.
fn said(program: &str, words: &[&str]) -> String {
    let output = Command::new(program).args(words).output().map(|output| output.stdout).unwrap_or_default();
    String::from_utf8_lossy(&output).trim().to_string()
}
