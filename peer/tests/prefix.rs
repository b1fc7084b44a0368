//! The examples of the page on payloads that never begin another, as literals; and of all payloads of up to three bytes, under some
//! tables: the used bits of none begin another's, followed by anything it is 17 where it ends, and a list has one payload.

mod common;

use common::{read, table_of, worked_table, WORKED_EVENTS, WORKED_PAYLOAD};
use peer::padding::lengths_are_shortest;
use peer::{bim, cases, reader};
use std::collections::HashMap;

const BOOLEAN: [u32; 11] = [1, 1, 0, 0, 1, 1, 0, 0, 0, 0, 0];
/// A text that is not held.
const TEXT: [u32; 11] = [1, 1, 0, 0, 0, 1, 0, 0, 5, 0, 0];
const END: [u32; 4] = [6, 0, 0, 0];

#[test]
fn payloads_one_behind_the_other() {
    for (last, value) in [(0x00, 0), (0x80, 1)] {
        read(&BOOLEAN, 1, 0, &[0x0f, last], 3, 0).accepted(0, &[[1, 1, 0, 0], [3, value, 0, 1], END], b"", 9);
    }
    read(&BOOLEAN, 1, 0, &[0x0f, 0x80, 0x0f, 0x00], 3, 0).refused(17, 9, &[]);
    // The piece that is cut there is read again, and is none.
    read(&BOOLEAN, 1, 0, &[0x0f, 0x81], 3, 0).refused(17, 9, &[]);
    read(&worked_table(), 10, 0, &WORKED_PAYLOAD.repeat(2), 14, 2).refused(17, 68, &[]);
}

#[test]
fn one_list_with_a_blank_has_many_payloads() {
    for last in 0x18..0x20 {
        read(&TEXT, 1, 0, &[0x8f, last], 1, 0).accepted(2, &[[7, 1, 0, 8]], b"", 16);
    }
    read(&TEXT, 1, 0, &[0x8f, 0x00], 1, 0).accepted(2, &[[7, 1, 0, 5]], b"", 13);
    read(&TEXT, 1, 0, &[0x8f, 0x10], 1, 0).accepted(2, &[[7, 1, 0, 7]], b"", 15);
    let mut table = worked_table();
    table[4 + 7 * 3] = 0;
    let list = [&WORKED_EVENTS[..3], &[[7, 11, 3, 31]], &WORKED_EVENTS[6..]].concat();
    for byte in [0x43, 0x42] {
        let mut payload = WORKED_PAYLOAD;
        payload[5] = byte;
        read(&table, 10, 0, &payload, 12, 0).accepted(2, &list, b"", 68);
    }
}

/// A payload that was accepted.
struct Accepted {
    bits: Vec<bool>,
    payload: Vec<u8>,
    mode: u32,
    list: Vec<[u32; 4]>,
    texts: Vec<u8>,
}

fn accepted(table: &[u32], payload: &[u8]) -> Option<Accepted> {
    let (mut events, mut texts) = ([0; 4 * 24], [0; 24]);
    let answer = reader::read(table, 0, 10, 0, payload, &mut events, &mut texts);
    answer.is_accepted().then(|| Accepted {
        bits: (0..answer.bits).map(|bit| payload[bit / 8] << (bit % 8) & 0x80 != 0).collect(),
        payload: payload.to_vec(),
        mode: answer.mode,
        list: events.as_chunks().0[..answer.events].to_vec(),
        texts: texts[..answer.text].to_vec(),
    })
}

/// All payloads of up to three bytes that are accepted.
fn short_payloads(table: &[u32]) -> Vec<Accepted> {
    let mut all = vec![];
    for mode in [0x0f, 0x4f, 0x8f, 0x1f, 0x5f, 0x9f] {
        all.extend(accepted(table, &[mode]));
        for byte in 0..=255 {
            all.extend(accepted(table, &[mode, byte]));
            all.extend((0..=255).filter_map(|last| accepted(table, &[mode, byte, last])));
        }
    }
    all
}

#[test]
fn of_all_short_payloads_none_begins_another() {
    let optional = table_of(&[[1, 0, 0, 1, 0, 0, 0], [1, 1, 0, 0, 2, 0, 0]], &[[20, 1, 2]], &[]);
    let occurs = table_of(&[[1, 2, 0, 0, 0, 0, 0], [1, 1, 0, 0, 0, 0, 0]], &[], &[[3, 1, 0, 3], [0, 11, 1, 0]]);
    let mut unheld = occurs.clone();
    unheld[4 + 7] = 0;
    let cast = &cases::cast().table;
    let (mut met, mut blanks, mut padded) = (0, 0, 0);
    for table in [&BOOLEAN[..], &TEXT, &optional, &occurs, &unheld, cast] {
        let mut all = short_payloads(table);
        met += all.len();
        // In order, what begins another stands right before one that it begins.
        all.sort_by(|s, t| s.bits.cmp(&t.bits));
        for pair in all.windows(2) {
            assert!(
                !pair[1].bits.starts_with(&pair[0].bits),
                "{:02x?} begins {:02x?}",
                pair[0].payload,
                pair[1].payload
            );
        }
        let mut of_list = HashMap::new();
        for one in &all {
            for rest in [0x00, 0x0f, 0xff] {
                let butted = [&one.payload[..], &[rest]].concat();
                read(table, 10, 0, &butted, 24, 24).refused(bim::LEFT_OVER, one.bits.len() as u64, &[]);
                assert_eq!(one.bits.len().div_ceil(8), one.payload.len());
            }
            let bare: Vec<_> = one.list.iter().map(|&[kind, p, q, _]| [kind, p, q]).collect();
            if bare.iter().any(|event| event[0] == bim::KIND_BLANK) {
                blanks += 1;
            } else if lengths_are_shortest(one.mode, &one.list) {
                let other = of_list.insert((one.mode, bare, &one.texts), &one.payload);
                assert_eq!(other, None, "one list of two payloads: {:02x?}", one.payload);
            } else {
                padded += 1;
            }
        }
    }
    assert!(met > 1_000 && blanks > 100 && padded > 10, "{met}, {blanks}, {padded}");
}
