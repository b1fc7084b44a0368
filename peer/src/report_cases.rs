//! The named additions to a report: examples/reports.txt, whose form examples/README.md has. All of it is written by hand, from the request's page.

use crate::bim;
use crate::report::{bytes_of, FIRST_LINE, LINE};
use crate::vectors::vectors_of;
use crate::words::{big_endian, unhex};
use std::sync::LazyLock;

/// What `bim_report_add` is given and lent.
#[derive(Clone, Debug, PartialEq, Eq)]
pub struct Add {
    /// The table's bytes.
    pub table: Vec<u8>,
    /// Who reads.
    pub party: u32,
    /// Root name and type.
    pub root: (u32, u32),
    /// The payload.
    pub payload: Vec<u8>,
    /// The report as it is before.
    pub report: Vec<u8>,
}

/// A named addition with its answer.
#[derive(Clone, Debug)]
pub struct Case {
    /// What it shows.
    pub name: String,
    /// What is asked.
    pub add: Add,
    /// The number answered.
    pub number: u32,
    /// The report behind it.
    pub now: Vec<u8>,
}

static ALL: LazyLock<Vec<Case>> = LazyLock::new(|| {
    let case = |block: &str| case_of(block).unwrap_or_else(|| panic!("not understood: {block}"));
    vectors_of(include_str!("../../examples/reports.txt")).map(case).collect()
});

/// All of them.
pub fn all() -> &'static [Case] {
    &ALL
}

/// A block as a case; `None` where it cannot be understood.
fn case_of(block: &str) -> Option<Case> {
    let mut case = Case {
        name: String::new(),
        add: Add { table: vec![], party: 0, root: (0, 0), payload: vec![], report: vec![] },
        number: bim::ACCEPTED,
        now: vec![],
    };
    let (mut before, mut bytes, mut now) = (vec![0; bim::REPORT_NUMBERS], bim::REPORT, None);
    for line in block.lines() {
        let (key, rest) = line.split_once(' ').unwrap_or((line, ""));
        let words = || rest.split(' ').map(|word| word.parse::<u32>().ok()).collect::<Option<Vec<_>>>();
        match key {
            "case" => case.name = rest.to_string(),
            "table" => case.add.table = big_endian(&words()?),
            "party" => case.add.party = rest.parse().ok()?,
            "root" => case.add.root = words()?.try_into().map(|[name, of_type]: [u32; 2]| (name, of_type)).ok()?,
            "payload" => case.add.payload = unhex(rest)?,
            "lines" => {
                // So many lines of names from the one given on, each seen once.
                let [count, name]: [u32; 2] = words()?.try_into().ok()?;
                for (line, name) in (0..count as usize).zip(name..) {
                    before[FIRST_LINE + LINE * line..][..2].copy_from_slice(&[name.into(), 1]);
                }
            }
            "before" => put(&mut before, rest)?,
            "bytes" => bytes = rest.parse().ok()?,
            "answer" => case.number = rest.parse().ok()?,
            "now" => {
                let mut changed = before.clone();
                put(&mut changed, rest)?;
                now = Some(changed);
            }
            "end" => {}
            _ => return None,
        }
    }
    case.add.report = bytes_of(&before);
    case.add.report.resize(bytes, 0xdd);
    // What is not said to have changed is as it was, and under 24 all is zeros.
    case.now = match case.number {
        bim::AREA_SIZE => vec![0; bytes],
        _ => now.map_or(case.add.report.clone(), |numbers| bytes_of(&numbers)),
    };
    Some(case)
}

/// Numbers as `index:number`, put in their places.
fn put(numbers: &mut [u64], text: &str) -> Option<()> {
    for pair in text.split(' ') {
        let (index, number) = pair.split_once(':')?;
        *numbers.get_mut(index.parse::<usize>().ok()?)? = number.parse().ok()?;
    }
    Some(())
}
