//! The named cases, each against the answer worked out by hand.

use peer::cases;
use peer::demands::{named, Tally};
use peer::vectors::renewed;

#[test]
fn every_named_case_gives_its_answer() {
    let mut tally = Tally::default();
    let faults: Vec<_> = cases::all().iter().filter_map(|case| named(&mut tally, case).err()).collect();
    assert!(faults.is_empty(), "{}", faults.join("\n"));
}

#[test]
fn the_named_cases_reach_every_number() {
    let mut tally = Tally::default();
    for case in cases::all() {
        let _ = named(&mut tally, case);
    }
    assert!(tally.is_whole() && tally.items_are_whole());
}

#[test]
fn names_are_told_apart() {
    let mut names: Vec<_> = cases::all().iter().map(|case| &case.name).collect();
    let count = names.len();
    names.sort();
    names.dedup();
    assert_eq!(names.len(), count);
}

#[test]
fn vectors_adds_what_is_computed_and_leaves_answers_alone() {
    let asked = "# for the eye\ncase x\ntable 1 1 0 0 1 1 0 0 0 0 0\nroot 1 0\nbits 00001111 1\nrooms 12 0\n";
    let given = format!("{asked}answer 0 0 0 3 0 9\nend\n");
    let whole = given
        .replace("rooms", "payload 0f80\nrooms")
        .replace("end", "event 1 1 0 0\nevent 3 1 0 1\nevent 6 0 0 0\ntexts -\nend");
    assert_eq!(renewed(&given), Ok(whole.clone()));
    assert_eq!(renewed(&whole), Ok(whole));
    assert!(renewed(&format!("{asked}answer 5 8 0 0 0 0\npath 1\nend\n")).is_err());
    assert!(renewed("case x\nend\n").is_err());
    assert_eq!(renewed("width 5 = 7\n"), Ok("width 5 = 3\n".to_string()));
}
