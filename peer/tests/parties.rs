//! The examples of the page on parties, and who sees what of whose settings: in words and in the C boundary's bytes, as literals.

mod common;

use common::{read_by, write_by};
use peer::words::{big_endian, words_of};
use peer::{host, swift};

/// A boolean, held by party 2.
const HELD_BY_2: [u32; 11] = [1, 1, 0, 0, 4, 1, 0, 0, 0, 0, 0];
const LIST: [[u32; 4]; 3] = [[1, 1, 1, 5], [3, 1, 0, 1], [6, 0, 0, 0]];
const PAYLOAD: [u8; 2] = [0x8f, 0x0c];

/// The boolean with this held word.
fn held(word: u32) -> [u32; 11] {
    let mut table = HELD_BY_2;
    table[4] = word;
    table
}

#[test]
fn what_is_read() {
    read_by(2, &HELD_BY_2, (1, 0), &PAYLOAD, 2048, 0).accepted(2, &LIST, b"", 14);
    read_by(0, &HELD_BY_2, (1, 0), &PAYLOAD, 2048, 0).accepted(2, &[[7, 1, 0, 6]], b"", 14);
    read_by(0, &HELD_BY_2, (1, 0), &[0x0f, 0x80], 2048, 0).refused(9, 8, &[]);
    read_by(8, &HELD_BY_2, (1, 0), &PAYLOAD, 2048, 0).refused(26, 0, &[]);
    read_by(8, &HELD_BY_2, (1, 0), &[], 2048, 0).refused(26, 0, &[]);
    read_by(8, &HELD_BY_2, (1, 0), &[0xcf], 2048, 0).refused(26, 0, &[]);
    read_by(8, &HELD_BY_2, (1, 1), &PAYLOAD, 2048, 0).refused(2, 0, &[]);
    read_by(8, &held(256), (1, 1), &PAYLOAD, 2048, 0).refused(1, 4, &[]);
}

#[test]
fn what_is_written() {
    write_by(0, &HELD_BY_2, (1, 0), 2, &LIST, b"", 2).refused(9, 0);
    let written = write_by(2, &HELD_BY_2, (1, 0), 2, &LIST, b"", 2);
    assert_eq!((written.answer.number, written.payload), (0, PAYLOAD.to_vec()));
    write_by(8, &HELD_BY_2, (1, 0), 9, &LIST, b"", 2).refused(26, 0);
    write_by(8, &HELD_BY_2, (1, 1), 9, &LIST, b"", 2).refused(2, 0);
    for write in [host::write, swift::write] {
        let (mut payload, mut area) = ([0xdd; 2], [0xdd; 152]);
        // A list of 5 bytes.
        assert_eq!(write(&big_endian(&HELD_BY_2), 8, 1, 0, 9, &[0; 5], b"", &mut payload, &mut area), 26);
        assert_eq!((payload, area), ([0; 2], [0; 152]));
    }
    for write in [host::write_lengths, swift::write_lengths] {
        let mut payload = [0xdd; 2];
        let mut write =
            |party, list: &[u8]| write(&big_endian(&HELD_BY_2), party, 1, 0, list, b"", &mut payload, &mut [0xdd; 152]);
        let list = big_endian(&LIST.concat());
        assert_eq!([write(8, &[0; 5]), write(0, &list), write(2, &list)], [26, 9, 0]);
        assert_eq!(payload, PAYLOAD);
    }
}

/// The place, the held word and the number that a setting leaves, with all other words of the table as they were.
fn set(word: u32, party: u32, of_type: u32, mark: u32) -> (u32, u32, u32) {
    let mut answers = vec![];
    for set_held in [host::set_held, swift::set_held] {
        let (mut table, mut area) = (big_endian(&held(word)), [0xdd; 152]);
        let number = set_held(&mut table, party, of_type, mark, &mut area);
        assert!(area[4..].iter().all(|&byte| byte == 0));
        let words = words_of(&table);
        assert_eq!(words, held(words[4]));
        answers.push((number, words_of(&area)[0], words[4]));
    }
    assert_eq!(answers[0], answers[1]);
    answers[0]
}

#[test]
fn what_is_set() {
    assert_eq!(set(4, 0, 0, 1), (0, 0, 5));
    assert_eq!(set(4, 2, 0, 0), (0, 0, 0));
    assert_eq!(set(4, 7, 0, 5), (0, 0, 132));
    assert_eq!(set(4, 8, 0, 1), (26, 0, 4));
    assert_eq!(set(4, 8, 1, 1), (2, 0, 4));
    assert_eq!(set(4, 0, 1, 1), (2, 0, 4));
    assert_eq!(set(256, 0, 0, 1), (1, 4, 256));
    for set_held in [host::set_held, swift::set_held] {
        let (mut table, mut area) = (big_endian(&HELD_BY_2), [0xdd; 151]);
        assert_eq!(set_held(&mut table, 0, 0, 1, &mut area), 24);
        assert_eq!((table, area), (big_endian(&HELD_BY_2), [0; 151]));
        let mut odd = [0xdd; 45];
        odd[..44].copy_from_slice(&big_endian(&HELD_BY_2));
        let before = odd;
        assert_eq!(set_held(&mut odd, 0, 0, 1, &mut [0; 152]), 1);
        assert_eq!(odd, before);
    }
}

#[test]
fn every_mark_is_a_bit_of_its_own() {
    for word in 0..=255 {
        for party in 0..8 {
            assert_eq!(set(word, party, 0, 1), (0, 0, word | 1 << party));
            assert_eq!(set(word, party, 0, 0), (0, 0, word & !(1 << party)));
            let read = read_by(party, &held(word), (1, 0), &PAYLOAD, 3, 0);
            let first = if word >> party & 1 == 1 { LIST[0] } else { [7, 1, 0, 6] };
            assert_eq!((read.answer.number, &read.events[..4]), (0, &first[..]));
        }
    }
}

#[test]
fn others_do_not_bear_on_what_one_sees() {
    for party in 0..8 {
        for own in [0, 1] {
            let with = |others: u32| (others & !(1 << party)) | own << party;
            let answer = |word: u32| {
                let read = read_by(party, &held(word), (1, 0), &PAYLOAD, 3, 0);
                let written = write_by(party, &held(word), (1, 0), 2, &LIST, b"", 2);
                (read.answer, read.events, written.answer, written.payload)
            };
            let alone = answer(with(0));
            (0..=255).for_each(|others| assert_eq!(answer(with(others)), alone));
        }
    }
}
