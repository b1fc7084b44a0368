//! `speed`: the proved C calls against the peer's fast ones and nanopb, timed in turn and counted by callgrind, as a page of Markdown.
//! `speed goals` counts the rows that have a goal, and has exit status 1 where one passes what it is guarded at. `speed reports` has the
//! last table alone, and exit status 1 where counting takes longer than it may; `speed shelves` the table of shelves, and 1 where a call is
//! over its goal. `speed rows` names the rows of the comparison.
//! `speed counts`, `speed counts goals` and `speed counts shelves` make each call once; `speed`, `speed goals` and `speed shelves` run that under valgrind.

mod counts;
mod goals;
mod nanopb;
mod page;
#[path = "../calls/proved.rs"]
mod proved;
mod reports;
mod shelves;
mod sides;
mod times;

use nanopb::Nanopb;
use peer::calls::{Call, Case};
use peer::speed::{growing, of_dates, standard, with_lengths, Input};
use std::process::ExitCode;

/// A call to be measured, and where it stands on the page.
pub struct Item {
    /// What the payload is, or what grows.
    pub name: String,
    /// Payload bytes and events, or the size of what grows.
    pub size: String,
    /// Words of the table.
    pub words: usize,
    /// The call itself.
    pub case: Case,
    /// What it belongs to.
    pub part: Part,
}

/// The tables of the page.
#[derive(Clone, Copy, PartialEq, Eq)]
pub enum Part {
    /// The comparison proper.
    Inputs,
    /// One measure grows, to this size.
    Growth(usize),
    /// So many values of one kind, which dates are told apart by.
    Values,
}

/// The rows of the comparison proper, in order.
fn compared() -> Vec<Item> {
    let mut items = vec![];
    let mut add = |input: &Input, words: usize, cases: [Case; 2]| {
        let (bytes, events) = input.sizes();
        for case in cases {
            let size = format!("{bytes}, {events}");
            items.push(Item { name: input.name.clone(), size, words, case, part: Part::Inputs });
        }
    };
    for input in standard() {
        for table in input.tables() {
            add(&input, table.len(), [input.reading(&table), input.writing(&table)]);
        }
    }
    // The two calls that write, side by side.
    let input = with_lengths();
    for table in input.tables() {
        let named = input.writing(&table);
        add(&input, table.len(), [named.clone(), named.without_mode()]);
    }
    items
}

/// All that is measured of reading and writing, in order: the comparison, what grows, and values.
fn items() -> Vec<Item> {
    let mut items = compared();
    for growth in growing() {
        for call in [Call::Read, Call::Write] {
            for (size, input, table) in &growth.steps {
                let case = if call == Call::Read { input.reading(table) } else { input.writing(table) };
                let name = growth.measure.to_string();
                items.push(Item { name, size: size.to_string(), words: table.len(), case, part: Part::Growth(*size) });
            }
        }
    }
    for call in [Call::Read, Call::Write] {
        for input in of_dates() {
            let [table, _] = input.tables();
            let case = if call == Call::Read { input.reading(&table) } else { input.writing(&table) };
            let size = input.sizes().0.to_string();
            items.push(Item { name: input.name, size, words: table.len(), case, part: Part::Values });
        }
    }
    items
}

/// Each call of the page once, with a mark behind each.
fn make_calls() {
    let items = items();
    counts::make_calls(&items);
    shelves::make_calls(&shelves::items());
    if let Some(mut nanopb) = Nanopb::of_guide(&items) {
        nanopb.make_calls(&items);
    }
}

/// Everything, measured and printed.
fn print_page() {
    let (items, shelves) = (items(), shelves::items());
    let mut nanopb = Nanopb::of_guide(&items);
    items.iter().for_each(|item| sides::check(&item.case));
    shelves.iter().for_each(shelves::Shelf::check);
    let marks = [sides::SIDES.len() * items.len(), shelves::SIDES * shelves.len()];
    let of_nanopb = if nanopb.is_some() { nanopb::MARKS } else { 0 };
    let counts = counts::under_callgrind(&["counts"], marks[0] + marks[1] + of_nanopb);
    let (of_items, counts) = counts.split_at(marks[0]);
    let (of_shelves, of_nanopb) = counts.split_at(marks[1]);
    let times: Vec<_> = items.iter().map(|item| times::medians(&item.case)).collect();
    let rivals =
        nanopb.as_mut().map_or(vec![], |nanopb| nanopb.measured(&items, of_items.as_chunks().0, &of_nanopb[1..]));
    let short = page::print(&items, &times, of_items.as_chunks().0, &rivals);
    print_shelves(&shelves, of_shelves);
    reports::print();
    page::print_short(&short);
}

/// The table of shelves, by the counts; whether every call is within its goal.
fn print_shelves(shelves: &[shelves::Shelf], counts: &[u64]) -> bool {
    let times: Vec<_> = shelves.iter().map(shelves::Shelf::medians).collect();
    shelves::print(shelves, &times, counts.as_chunks().0)
}

/// That table alone.
fn shelves_alone() -> bool {
    let shelves = shelves::items();
    shelves.iter().for_each(shelves::Shelf::check);
    let counts = counts::under_callgrind(&["counts", "shelves"], shelves::SIDES * shelves.len());
    print_shelves(&shelves, &counts)
}

fn main() -> ExitCode {
    let words: Vec<_> = std::env::args().skip(1).collect();
    match words.iter().map(String::as_str).collect::<Vec<_>>()[..] {
        [] => print_page(),
        ["goals"] => return goals::guard(),
        ["reports"] => return ExitCode::from(u8::from(!reports::print())),
        ["shelves"] => return ExitCode::from(u8::from(!shelves_alone())),
        ["rows"] => compared().iter().for_each(|item| println!("{}", page::row_name(item))),
        ["counts"] => make_calls(),
        ["counts", "goals"] => goals::make_calls(),
        ["counts", "shelves"] => shelves::make_calls(&shelves::items()),
        _ => {
            eprintln!("speed [goals | reports | shelves | rows | counts | counts goals | counts shelves]");
            return ExitCode::from(2);
        }
    }
    ExitCode::SUCCESS
}
