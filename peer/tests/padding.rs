//! The examples of the page on padded TheLengths, as literals, with what is written back of those that are accepted.

mod common;

use common::{read, worked_table, write, WORKED_EVENTS, WORKED_PAYLOAD};
use peer::padding::lengths_are_shortest;

const BOOLEAN: [u32; 11] = [1, 1, 0, 0, 1, 1, 0, 0, 0, 0, 0];
const UNSIGNED: [u32; 11] = [1, 1, 0, 0, 1, 1, 0, 0, 2, 0, 0];
const EMPTY: [u32; 11] = [1, 1, 0, 0, 1, 0, 0, 0, 0, 0, 0];
const END: [u32; 4] = [6, 0, 0, 0];

/// Reads as this list of mode 2, which is written as these bytes.
fn holds(table: &[u32], name: u32, payload: &[u8], list: &[[u32; 4]], texts: &[u8], bits: usize, back: &[u8]) {
    read(table, name, 0, payload, 2048, 8192).accepted(2, list, texts, bits);
    // The room is that of the payload read.
    let written = write(table, name, 0, 2, list, texts, payload.len());
    assert_eq!((written.answer.number, &written.payload[..back.len()]), (0, back));
    assert_eq!(written.answer.bits.div_ceil(8), back.len());
}

#[test]
fn the_worked_example_with_50_in_three_groups() {
    let mut list = WORKED_EVENTS;
    list[0][3] = 15;
    let payload = [0x8f, 0xc0, 0x65, 0x50, 0xa8, 0x92, 0x1a, 0x70, 0x61, 0x00];
    holds(&worked_table(), 10, &payload, &list, b"Hi", 73, &WORKED_PAYLOAD);
}

#[test]
fn one_group_two_and_eight() {
    let list = |bits| [[1, 1, 1, bits], [3, 1, 0, 1], END];
    let back = [0x8f, 0x0c];
    holds(&BOOLEAN, 1, &[0x8f, 0x0c], &list(5), b"", 14, &back);
    holds(&BOOLEAN, 1, &[0x8f, 0x80, 0x60], &list(10), b"", 19, &back);
    holds(&BOOLEAN, 1, &[0x8f, 0xfe, 0, 0, 0, 1, 0x80], &list(40), b"", 49, &back);
    holds(&EMPTY, 1, &[0x8f, 0x80, 0x00], &[[1, 1, 1, 10], END], b"", 18, &[0x8f, 0x00]);
}

#[test]
fn what_is_refused() {
    read(&BOOLEAN, 1, 0, &[0x8f, 0xff, 0, 0, 0, 0], 2048, 8192).refused(13, 8, &[]);
    read(&UNSIGNED, 1, 0, &[0x0f, 0x80, 0x40], 2048, 8192).refused(12, 8, &[1]);
    read(&UNSIGNED, 1, 0, &[0x8f, 0x82, 0xa0, 0x10], 2048, 8192).refused(12, 18, &[1]);
    read(&BOOLEAN, 1, 0, &[0x8f, 0x80, 0xa0], 2048, 8192).refused(11, 18, &[1]);
    read(&BOOLEAN, 1, 0, &[0x8f, 0x82, 0x60], 2048, 8192).refused(10, 8, &[]);
    read(&BOOLEAN, 1, 0, &[0x8f, 0xe0], 2048, 8192).refused(5, 8, &[]);
}

#[test]
fn what_every_length_is_shortest_means() {
    assert!(lengths_are_shortest(2, &WORKED_EVENTS));
    for start in [0, 3, 7, 10] {
        let mut list = WORKED_EVENTS;
        list[start][3] += 5;
        assert!(!lengths_are_shortest(2, &list), "event {start}");
        // Where lengths are optional the flag is one bit of the head.
        WORKED_EVENTS.iter().zip(&mut list).for_each(|(event, one)| one[3] = event[3] + u32::from(event[0] == 1));
        assert!(lengths_are_shortest(1, &list) && lengths_are_shortest(5, &list) && !lengths_are_shortest(6, &list));
        // Without a length there is nothing to be shortest.
        (list[start][2], list[start][3]) = (0, 1);
        assert!(lengths_are_shortest(1, &list), "event {start} without a length");
    }
    // A content of 6 bits takes one group; with an inner head of 15 bits it has 16, which take two.
    let nested = |outer, inner| [[1, 1, 1, outer], [1, 2, 1, inner], [3, 1, 0, 1], END, END];
    assert!(lengths_are_shortest(2, &nested(5, 5)) && !lengths_are_shortest(2, &nested(5, 15)));
    assert!(!lengths_are_shortest(2, &nested(10, 15)) && !lengths_are_shortest(2, &nested(10, 5)));
}
