//! The fast calls, which the proved ones are timed against, answer as the peer does on the seeded cases of the C calls.

use peer::calls::run;
use peer::speed::{standard, with_lengths};
use peer::{calls_of, swift, table};

calls_of!(Swift = swift::check_table, swift::read, swift::write, swift::write_lengths, swift::set_held);

#[test]
fn the_fast_calls_answer_as_the_peer() {
    let mut bench = run(&Swift, 300_000, 1);
    assert!(bench.report() && bench.items_are_whole());
}

#[test]
fn what_is_timed_has_right_tables() {
    for input in standard().into_iter().chain([with_lengths()]) {
        let [small, large] = input.tables().map(|words| table::check(&words).map(|()| words.len()));
        assert!(small < large && [Ok(8964), Ok(14_598)].contains(&large), "{}: {small:?}, {large:?}", input.name);
    }
}
