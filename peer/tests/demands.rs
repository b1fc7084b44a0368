//! A short run of the seeded trials, so that `cargo test` alone notices a violated demand.

mod common;

use common::{worked_table, WORKED_PAYLOAD};
use peer::answer::{refusal, Answer, Path};
use peer::bim;
use peer::call::Read;
use peer::cases;
use peer::demands::{self, judge_pair, Outcome, Pair, Tally};
use peer::rows::held_word;
use peer::trials::{trial, KINDS};

#[test]
fn the_demands_hold_for_some_thousand_seeds() {
    let mut tally = Tally::default();
    let mut kinds = [0; KINDS.len()];
    for seed in 0..5_000 {
        let (kind, result) = trial(&mut tally, seed);
        kinds[kind] += 1;
        assert_eq!(result, Ok(()), "seed {seed}");
    }
    assert!(!kinds.contains(&0), "{kinds:?}");
    assert!(tally.met.has_met(&[("reader", &[bim::ACCEPTED]), ("writer", &[bim::ACCEPTED])]) && tally.blanks > 0);
}

#[test]
fn demand_3_goes_by_effective_types() {
    let cast = cases::cast();
    let without = |of_type: usize| {
        let mut table = cast.table.clone();
        table[held_word(of_type)] = 0;
        table
    };
    let read =
        |table: &[u32]| demands::read(&mut Tally::default(), &Read { table: table.to_vec(), ..cast.clone() }).unwrap();
    let second = read(&cast.table);
    let judge = |table: &[u32], first: &Outcome| judge_pair([table, &cast.table], 0, cast.root, first, &second);
    // Element 11 is of type 1 and cast to type 2; element 12 is of type 3, and its substitute of type 1.
    let first = read(&without(2));
    assert_eq!(judge(&without(2), &first), Ok(Pair::Blanked));
    assert_eq!(judge(&without(3), &read(&without(3))), Ok(Pair::Neither), "no element is of type 3 in effect");
    assert!(judge(&without(2), &second).is_err(), "nothing blanked");
    assert!(judge(&without(3), &first).is_err(), "blanked, and held");
    let blank = first.list().iter().position(|event| event[0] == bim::KIND_BLANK).unwrap();
    let mut by_row = first.clone();
    by_row.events[4 * blank + 2] = 1;
    assert!(judge(&without(2), &by_row).is_err(), "a Blank of the row's type");
    let mut codes_left = first.clone();
    codes_left.events[4 * blank + 3] -= 3;
    assert!(judge(&without(2), &codes_left).is_err(), "a Blank without the bits of its codes");
}

#[test]
fn demand_3_judges_answers_that_nobody_should_give() {
    let second_table = worked_table();
    let mut first_table = second_table.clone();
    first_table[4 + 7 * 3] = 0;
    let read = |table: &[u32]| {
        let call = Read {
            table: table.to_vec(),
            party: 0,
            root: (10, 0),
            payload: WORKED_PAYLOAD.to_vec(),
            event_words: 400,
            text_room: 40,
        };
        demands::read(&mut Tally::default(), &call).unwrap()
    };
    let (first, second) = (read(&first_table), read(&second_table));
    let judge =
        |first: &Outcome, second: &Outcome| judge_pair([&first_table, &second_table], 0, (10, 0), first, second);
    assert_eq!(judge(&first, &second), Ok(Pair::Blanked));

    let blank = first.list().iter().position(|event| event[0] == bim::KIND_BLANK).unwrap();
    let mut short = first.clone();
    short.events[4 * blank + 3] -= 1;
    assert!(judge(&short, &second).is_err(), "a Blank one bit short");
    let mut kept = first.clone();
    kept.texts[..second.answer.text].copy_from_slice(second.text());
    kept.answer.text = second.answer.text;
    assert!(judge(&kept, &second).is_err(), "the blanked element's text kept");
    assert!(judge(&second, &second).is_err(), "nothing blanked");
    let refuses = |number, place, path: &[u32]| {
        let mut open = Path::empty();
        path.iter().for_each(|&name| open.push(name));
        Outcome { answer: Answer::refused(refusal(number, place), open), events: vec![], texts: vec![] }
    };
    assert!(judge(&refuses(bim::NOT_HELD, 18, &[10]), &second).is_err(), "refused in spite of its length");

    let place = 8 + first.list()[..blank].iter().map(|event| event[3] as usize).sum::<usize>();
    let inside = refuses(bim::NOT_UTF8, place + 5, &[10, 11]);
    assert_eq!(judge(&first, &inside), Ok(Pair::SecondRefuses));
    assert_eq!(judge(&first, &refuses(bim::EVENT_ROOM, place, &[10])), Ok(Pair::SecondLacksRoom));
    assert!(judge(&first, &refuses(bim::NOT_UTF8, place + 5, &[10])).is_err(), "refused where no Blank is open");
    assert!(judge(&first, &refuses(bim::NOT_UTF8, 8, &[10, 11])).is_err(), "refused before the Blank");
    assert!(judge(&first, &refuses(bim::NOT_UTF8, 67, &[10, 11])).is_err(), "refused behind the Blank");
}
