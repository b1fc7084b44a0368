//! The named cases: the calls of examples/tables.txt, payloads.txt, lists.txt and settings.txt, at every limit and in every order that the
//! papers fix, each with the answer worked out by hand there. They are tests, a part of every property run and of every
//! comparison, and the fuzzer's first inputs.

use crate::answer::Answer;
use crate::call::{Call, Read, Write};
use crate::vectors::{case_of, vectors_of};
use std::sync::LazyLock;

/// A named call with its answer.
#[derive(Clone, Debug)]
pub struct Case {
    /// What the case shows.
    pub name: String,
    /// The call.
    pub call: Call,
    /// Its answer.
    pub answer: Answer,
}

static ALL: LazyLock<Vec<Case>> = LazyLock::new(|| {
    let files = [
        include_str!("../../examples/tables.txt"),
        include_str!("../../examples/payloads.txt"),
        include_str!("../../examples/lists.txt"),
        include_str!("../../examples/settings.txt"),
    ];
    let case = |block: &str| case_of(block).unwrap_or_else(|| panic!("not understood: {block}"));
    files.into_iter().flat_map(vectors_of).map(case).collect()
});

/// All of them: tables, then payloads, lists and settings.
pub fn all() -> &'static [Case] {
    &ALL
}

fn named(name: &str) -> &'static Call {
    &all().iter().find(|case| case.name == name).unwrap_or_else(|| panic!("no case is named {name}")).call
}

/// The reading of the worked example of document 01.
pub fn worked() -> &'static Read {
    match named("worked example") {
        Call::Read(read) => read,
        other => panic!("no reading: {other:?}"),
    }
}

/// The reading of the example of casting and substitution.
pub fn cast() -> &'static Read {
    match named("cast") {
        Call::Read(read) => read,
        other => panic!("no reading: {other:?}"),
    }
}

/// The writing of the worked list.
pub fn worked_list() -> &'static Write {
    match named("worked list") {
        Call::Write(write) => write,
        other => panic!("no writing: {other:?}"),
    }
}

/// The largest tables of both forms: 256 types, 1,024 attribute rows, 1,024 particle rows; the second with 1,024 derived entries
/// and 1,024 substitutes.
pub fn largest_tables() -> [&'static [u32]; 2] {
    ["the largest table", "the largest table of form 2"].map(|name| match named(name) {
        Call::Table(table) => &table[..],
        other => panic!("no table: {other:?}"),
    })
}
