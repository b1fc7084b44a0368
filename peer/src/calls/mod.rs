//! The C calls of another implementation against `host`, byte for byte: seeded cases of every kind, in buffers of junk
//! between guards. `bin/calls` brings the proved library's calls; tests/calls.rs brings faulty ones.

mod bench;
mod bits;
mod case;
mod change;
mod coded;
mod message_coded;
mod messages;
mod pairs;
mod reading;
mod reports;
mod setting;
pub mod shelves;
mod tally;
mod writing;

pub use bench::Bench;
pub use bits::{run as run_bits, BitBench, BitCalls};
pub use case::{Call, Case};
pub use change::change;
pub use coded::{code, decode, seeds};
pub use message_coded::{
    change as change_message, code as code_message, decode as decode_message, seeds as message_seeds,
};
pub use messages::{
    on_message_peer, run as run_messages, MessageBench, MessageCalls, MessageCase, MessageJudge, MessageLeft,
};
pub use reports::{run as run_reports, ReportBench, ReportCalls, ReportJudge};
pub use shelves::{damage as damage_shelves, run as run_shelves, ShelfBench, ShelfCalls, ShelfCase};

use crate::cases;
use crate::host;
use crate::rng::Rng;

/// What `bim_read` is given and lent.
pub struct Reading<'a> {
    /// Given: the table's bytes.
    pub table: &'a [u8],
    /// Given: who reads.
    pub party: u32,
    /// Given: root name and type.
    pub root: (u32, u32),
    /// Given: the payload.
    pub payload: &'a [u8],
    /// Lent for the events.
    pub events: &'a mut [u8],
    /// Lent for the texts.
    pub texts: &'a mut [u8],
    /// Lent for the answer.
    pub area: &'a mut [u8],
}

/// What `bim_write` and `bim_write_lengths` are given and lent, but for the mode.
pub struct Writing<'a> {
    /// Given: the table's bytes.
    pub table: &'a [u8],
    /// Given: who writes.
    pub party: u32,
    /// Given: root name and type.
    pub root: (u32, u32),
    /// Given: the list's bytes.
    pub events: &'a [u8],
    /// Given: the texts.
    pub texts: &'a [u8],
    /// Lent for the payload.
    pub payload: &'a mut [u8],
    /// Lent for the answer.
    pub area: &'a mut [u8],
}

/// What `bim_set_held` is given and lent.
pub struct Setting<'a> {
    /// Changed: the table's bytes.
    pub table: &'a mut [u8],
    /// Given: whose mark.
    pub party: u32,
    /// Given: of which type.
    pub of_type: u32,
    /// Given: 0 clears, any other sets.
    pub mark: u32,
    /// Lent for the answer.
    pub area: &'a mut [u8],
}

/// The five C calls.
pub trait Calls {
    /// `bim_check_table`.
    fn check_table(&self, table: &[u8], area: &mut [u8]) -> u32;
    /// `bim_read`.
    fn read(&self, lent: Reading<'_>) -> u32;
    /// `bim_write`.
    fn write(&self, mode: u32, lent: Writing<'_>) -> u32;
    /// `bim_write_lengths`.
    fn write_lengths(&self, lent: Writing<'_>) -> u32;
    /// `bim_set_held`.
    fn set_held(&self, lent: Setting<'_>) -> u32;
}

/// Makes a type of five functions that have the calls' arguments in their order.
#[macro_export]
macro_rules! calls_of {
    ($(#[$meta:meta])* $name:ident = $check:path, $read:path, $write:path, $write_lengths:path, $set:path) => {
        $(#[$meta])*
        pub struct $name;

        impl $crate::calls::Calls for $name {
            fn check_table(&self, table: &[u8], area: &mut [u8]) -> u32 {
                $check(table, area)
            }

            #[inline(always)]
            fn read(&self, lent: $crate::calls::Reading<'_>) -> u32 {
                let $crate::calls::Reading { table, party, root, payload, events, texts, area } = lent;
                $read(table, party, root.0, root.1, payload, events, texts, area)
            }

            #[inline(always)]
            fn write(&self, mode: u32, lent: $crate::calls::Writing<'_>) -> u32 {
                let $crate::calls::Writing { table, party, root, events, texts, payload, area } = lent;
                $write(table, party, root.0, root.1, mode, events, texts, payload, area)
            }

            #[inline(always)]
            fn write_lengths(&self, lent: $crate::calls::Writing<'_>) -> u32 {
                let $crate::calls::Writing { table, party, root, events, texts, payload, area } = lent;
                $write_lengths(table, party, root.0, root.1, events, texts, payload, area)
            }

            #[inline(always)]
            fn set_held(&self, lent: $crate::calls::Setting<'_>) -> u32 {
                let $crate::calls::Setting { table, party, of_type, mark, area } = lent;
                $set(table, party, of_type, mark, area)
            }
        }
    };
}

calls_of! {
    /// The peer's own calls, which judge the others.
    Judge = host::check_table, host::read, host::write, host::write_lengths, host::set_held
}

/// The named cases, then at least `cases` seeded calls to read and check, as many to write, as many pairs of tables
/// for demand 3, and as many calls between which marks are set.
pub fn run(calls: &dyn Calls, cases: u64, seed: u64) -> Bench<'_> {
    let mut bench = Bench::new(calls, seed);
    bench.begin_part("named");
    reading::named(&mut bench);
    writing::named(&mut bench);
    setting::named(&mut bench);
    bench.count_items();
    all_seeded(&mut bench, cases, seed);
    bench
}

/// The seeded cases alone, and few of them: what runs under a checker that makes them slow.
pub fn sample(calls: &dyn Calls, cases: u64, seed: u64) -> Bench<'_> {
    let mut bench = Bench::new(calls, seed);
    bench.is_sample();
    all_seeded(&mut bench, cases, seed);
    bench
}

fn all_seeded(bench: &mut Bench<'_>, cases: u64, seed: u64) {
    seeded(bench, "reading", seed.wrapping_mul(4), cases, reading::round);
    seeded(bench, "writing", seed.wrapping_mul(4) + 1, cases, writing::round);
    seeded(bench, "pairs", seed.wrapping_mul(4) + 2, cases, pairs::round);
    seeded(bench, "settings", seed.wrapping_mul(4) + 3, cases, setting::round);
}

/// Rounds of `part`, each from a seed of its own, until it has had `cases` cases.
fn seeded(bench: &mut Bench<'_>, part: &'static str, seed: u64, cases: u64, round: fn(&mut Bench<'_>, &mut Rng)) {
    bench.begin_part(part);
    let mut seed = seed.wrapping_mul(0x1_0000_0000);
    while bench.cases() < cases {
        bench.begin_round(seed);
        round(bench, &mut Rng::new(seed));
        seed = seed.wrapping_add(1);
    }
}

/// Asks one case, and holds demand 2 of what it gives, or *own* of a setting.
pub fn ask(bench: &mut Bench<'_>, case: &Case) {
    match case.call {
        Call::Check => drop(bench.ask("tables", case)),
        Call::Read => drop(reading::ask(bench, "payloads", case)),
        Call::Write | Call::WriteLengths => drop(writing::ask(bench, "lists", case)),
        Call::SetHeld => drop(setting::ask(bench, "settings", case)),
    }
}

/// The named cases as calls.
fn named() -> Vec<Case> {
    cases::all().iter().map(|named| Case::of(&named.call)).collect()
}
