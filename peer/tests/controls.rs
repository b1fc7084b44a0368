//! The examples of the page on control characters, as literals; and a control character at every place of texts of every length up to
//! 40 bytes, at every alignment.

mod common;

use common::{read, worked_table, write, WORKED_EVENTS};
use peer::rows::{simple, Rows};
use peer::words::big_endian;
use peer::{bim, host, swift};

const TEXT: [u32; 11] = [1, 1, 0, 0, 1, 1, 0, 0, 5, 0, 0];
/// An empty root with a required text attribute 20.
const ATTRIBUTE: [u32; 21] = [1, 2, 1, 0, 1, 0, 0, 1, 0, 0, 0, 1, 1, 0, 0, 5, 0, 0, 20, 1, 1];
const END: [u32; 4] = [6, 0, 0, 0];

#[test]
fn what_is_read() {
    let three = [[1, 1, 0, 0], [3, 3, 0, 29], END];
    read(&TEXT, 1, 0, &[0x0f, 0x18, 0x48, 0x50, 0x68], 3, 3).accepted(0, &three, b"\t\n\r", 37);
    for payload in [&[0x0f, 0x13, 0x08, 0x38][..], &[0x0f, 0x08, 0x00], &[0x0f, 0x08, 0xf8]] {
        read(&TEXT, 1, 0, payload, 2048, 8192).refused(25, 8, &[1]);
    }
    read(&TEXT, 1, 0, &[0x0f, 0x1b, 0xfe, 0x14, 0x28], 3, 3).accepted(0, &three, &[127, 0xc2, 0x85], 37);
    read(&TEXT, 1, 0, &[0x0f, 0x10, 0x3f, 0xf8], 2048, 8192).refused(16, 8, &[1]);
    for (events, texts) in [(2048, 0), (1, 8192), (1, 0)] {
        read(&TEXT, 1, 0, &[0x0f, 0x08, 0x38], events, texts).refused(25, 8, &[1]);
    }
}

#[test]
fn what_is_written() {
    write(&TEXT, 1, 0, 0, &[[1, 1, 0, 0], [3, 1, 0, 0], END], &[7], 8192).refused(25, 1);
    write(&TEXT, 1, 0, 0, &[[1, 1, 0, 0], [3, 2, 0, 0], END], &[7], 8192).refused(23, 1);
    write(&TEXT, 1, 0, 0, &[[1, 1, 0, 0], [3, 2, 0, 0], END], &[7, 0xff], 8192).refused(16, 1);
    write(&ATTRIBUTE, 1, 0, 0, &[[1, 1, 0, 0], [2, 20, 1, 0], [3, 1, 0, 0], END], &[11], 8192).refused(25, 2);
}

#[test]
fn a_blank_is_not_looked_into() {
    let payload = [0x8f, 0x8c, 0xaa, 0x15, 0x12, 0x08, 0x3e, 0x0c, 0x20];
    let mut table = worked_table();
    read(&table, 10, 0, &payload, 2048, 8192).refused(25, 32, &[10, 11]);
    table[4 + 7 * 3] = 0;
    let mut list = WORKED_EVENTS.to_vec();
    list.splice(3..6, [[7, 11, 3, 31]]);
    read(&table, 10, 0, &payload, 2048, 8192).accepted(2, &list, b"", 68);
}

/// A text behind so many optional attributes, all of them absent, so that it begins at any bit.
fn behind(attributes: usize, text: &[u8]) -> (Vec<u8>, Vec<u8>) {
    let mut of_text = simple(bim::TEXT, 0, 0);
    of_text[3] = attributes as u32;
    let rows = Rows {
        types: vec![of_text, simple(bim::BOOLEAN, 0, 0)],
        attributes: vec![[20, 0, 1]; attributes],
        ..Rows::default()
    };
    let absent = [bim::KIND_ATTRIBUTE, 20, 0, 0].repeat(attributes);
    let list = [&[1, 1, 0, 0][..], &absent, &[3, text.len() as u32, 0, 0], &END].concat();
    (big_endian(&rows.words()), big_endian(&list))
}

#[test]
fn every_byte_of_a_text_counts() {
    for length in 1..=40 {
        let letters = vec![b'a'; length];
        for attributes in 0..8 {
            let (table, list) = behind(attributes, &letters);
            let (mut payload, mut area) = (vec![0; 60], [0; bim::AREA]);
            assert_eq!(host::write(&table, 0, 1, 0, 0, &list, &letters, &mut payload, &mut area), 0);
            // The text's bytes end where the payload's bits do.
            let bits = u32::from_be_bytes([area[16], area[17], area[18], area[19]]) as usize;
            payload.truncate(bits.div_ceil(8));
            for at in 0..length {
                for (byte, expected) in
                    [(7, 25), (31, 25), (0, 25), (9, 0), (10, 0), (13, 0), (32, 0), (127, 0), (0xff, 16)]
                {
                    let mut text = letters.clone();
                    text[at] = byte;
                    let mut changed = payload.clone();
                    peer::bits::put_byte(&mut changed, bits - 8 * (length - at), byte);
                    for (read, write) in [(host::read as Read, host::write as Write), (swift::read, swift::write)] {
                        let (mut events, mut texts) = ([0; 16 * 10], [0; 40]);
                        let number = read(&table, 0, 1, 0, &changed, &mut events, &mut texts, &mut area);
                        assert_eq!(number, expected, "{byte} at {at} of {length} bytes behind {attributes}");
                        let number = write(&table, 0, 1, 0, 0, &list, &text, &mut [0; 60], &mut area);
                        assert_eq!(number, expected, "{byte} at {at} of {length} bytes, written");
                    }
                }
            }
        }
    }
}

type Read = fn(&[u8], u32, u32, u32, &[u8], &mut [u8], &mut [u8], &mut [u8]) -> u32;
type Write = fn(&[u8], u32, u32, u32, u32, &[u8], &[u8], &mut [u8], &mut [u8]) -> u32;
