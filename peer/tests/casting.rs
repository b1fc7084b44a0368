//! The examples of the page on type casting and substitution, list by list, as literals: what examples/ holds of them besides the answers is
//! computed.

mod common;

use common::{read, write};

/// The table *cast*: type 1 has derived types 2, 3, 4, type 3 has 4; element 12 has the substitutes 13, 14, 15.
#[rustfmt::skip]
const CAST: [u32; 78] = [
    2, 5, 0, 3,
    1, 2, 0, 0, 0, 0, 0,  1, 1, 0, 0, 0, 0, 0,  1, 1, 0, 0, 5, 0, 0,  1, 0, 0, 0, 0, 0, 0,  1, 1, 0, 0, 2, 0, 0,
    1, 1, 2, 0,  0, 11, 1, 0,  0, 12, 3, 0,
    3, 3,  2, 3, 4,  13, 1, 14, 2, 15, 3,
    0, 0, 0, 3, 0, 0, 2, 1, 0, 0,  0, 0, 0, 0, 0, 3,
];
const PAYLOAD: [u8; 8] = [0x9f, 0x8b, 0x21, 0x88, 0x24, 0x86, 0x92, 0xc4];
#[rustfmt::skip]
const LIST: [[u32; 4]; 10] = [
    [1, 10, 1, 10], [1, 11, 1, 10], [8, 2, 0, 3], [3, 2, 0, 21], [6, 0, 0, 0],
    [1, 12, 1, 5], [8, 1, 1, 4], [3, 1, 0, 1], [6, 0, 0, 0], [6, 0, 0, 0],
];
const END: [u32; 4] = [6, 0, 0, 0];

#[test]
fn the_payload_reads_as_its_list_and_back() {
    read(&CAST, 10, 0, &PAYLOAD, 2048, 8192).accepted(6, &LIST, b"Hi", 62);
    let written = write(&CAST, 10, 0, 6, &LIST, b"Hi", 8);
    assert_eq!((written.answer.number, written.answer.bits), (0, 62));
    assert_eq!(written.payload, PAYLOAD);
    read(&CAST, 10, 0, &PAYLOAD, 2, 8192).refused(7, 28, &[10, 11]);
}

#[test]
fn the_short_call_has_no_casting() {
    let mut payload = [0xdd; 8];
    let answer = peer::writer::write_lengths(&CAST, 0, 10, 0, &LIST.concat(), b"Hi", &mut payload);
    assert_eq!((answer.number, answer.place, payload), (18, 2, [0; 8]));
}

#[test]
fn a_type_that_is_not_held_is_blank_by_its_effective_type() {
    let mut table = CAST;
    table[4 + 7 * 2] = 0;
    let mut list = LIST.to_vec();
    list.splice(1..5, [[7, 11, 2, 34]]);
    read(&table, 10, 0, &PAYLOAD, 2048, 8192).accepted(6, &list, b"", 62);
}

#[test]
fn the_other_readings() {
    let none = [[1, 10, 1, 5], [1, 11, 1, 5], [8, 1, 0, 1], [3, 1, 0, 1], END, [1, 12, 1, 5], [8, 3, 0, 2], END, END];
    read(&CAST, 10, 0, &[0x9f, 0x70, 0x91, 0x00], 2048, 8192).accepted(6, &none, b"", 27);
    let no_casting =
        [[1, 10, 1, 10], [1, 11, 1, 5], [3, 1, 0, 1], END, [1, 12, 1, 10], [8, 2, 2, 3], [3, 2, 0, 21], END, END];
    let payload = [0x8f, 0x8a, 0x03, 0x86, 0x28, 0x92, 0x1a, 0x40];
    read(&CAST, 10, 0, &payload, 2048, 8192).accepted(2, &no_casting, b"Hi", 58);
    let both = [[1, 10, 0, 0], [1, 11, 0, 0], [8, 3, 0, 3], END, [1, 12, 0, 0], [8, 4, 3, 4], [3, 9, 0, 5], END, END];
    read(&CAST, 10, 0, &[0x1f, 0xba, 0x90], 2048, 8192).accepted(4, &both, b"", 20);
}
