//! The cases marked P and the worked example of document 01, mended as the readings say. Every expected number is
//! written out here; none is computed by the code under test.

mod common;

use common::{bits, read, table_of, worked_table, write, Read, WORKED_EVENTS, WORKED_PAYLOAD};
use peer::codes::{self, Reading, Taken};
use peer::listing::listing;
use peer::value;

#[test]
fn vluimsbf5_of_0_15_and_16() {
    for (text, value) in [("00000", 0), ("01111", 15), ("1000010000", 16)] {
        let payload = bits(text);
        let expected = Taken { value, bits: text.len() };
        assert_eq!(codes::strict5(&payload, text.len(), 0), Ok(expected));
        let code = codes::write5(value);
        assert_eq!(format!("{:0w$b}", code.bits, w = text.len()), text);
        assert_eq!(code.width as usize, text.len());
    }
}

#[test]
fn vluimsbf5_not_shortest_is_12_and_eight_ones_13() {
    let payload = bits("1000001111");
    assert_eq!(codes::strict5(&payload, 10, 0), Err(12));
    let loose = Reading { value: 15, bits: 10, shortest: false };
    assert_eq!(codes::read5(&payload, 10, 0), Ok(loose));
    assert_eq!(codes::strict5(&bits("11111111"), 8, 0), Err(13));
    assert_eq!(codes::strict5(&bits("11111111"), 7, 0), Err(5));
}

#[test]
fn vluimsbf8_of_127_and_128_and_one_not_shortest() {
    let taken = |value, bits| Ok(Taken { value, bits });
    assert_eq!(codes::strict8(&[0x7f], 8, 0), taken(127, 8));
    assert_eq!(codes::strict8(&[0x81, 0x00], 16, 0), taken(128, 16));
    assert_eq!(codes::strict8(&[0x80, 0x05], 16, 0), Err(12));
    assert_eq!(codes::strict8(&[0x81, 0x80], 16, 0), Err(13));
    assert_eq!(codes::strict8(&[0x81, 0x80], 15, 0), Err(5));
    assert_eq!(codes::strict8(&[0xff, 0x7f], 16, 0), taken(16383, 16));
    let code = codes::write8(128).unwrap();
    assert_eq!((code.bits, code.width), (0x8100, 16));
    let code = codes::write8(127).unwrap();
    assert_eq!((code.bits, code.width), (0x7f, 8));
    assert_eq!(codes::write8(16384), None);
}

#[test]
fn range_0_to_4_and_range_7_to_7() {
    let payload = bits("100101");
    assert_eq!(codes::read_range(0, 4, &payload, 6, 0), Ok(Taken { value: 4, bits: 3 }));
    assert_eq!(codes::read_range(0, 4, &payload, 6, 3), Err(14));
    assert_eq!(codes::read_range(7, 7, &payload, 0, 0), Ok(Taken { value: 7, bits: 0 }));
}

#[test]
fn signed_minus_zero_and_the_magnitude_2_to_the_31() {
    let minus_zero = bits("100000");
    assert_eq!(value::read(3, 0, 0, &minus_zero, 6, 0), Err(15));
    let groups = "1111111010000000000000000000000000000000";
    let negative = bits(&format!("1{groups}"));
    let read = value::read(3, 0, 0, &negative, 41, 0).unwrap();
    assert_eq!((read.word, read.bits, read.text), (0x8000_0000, 41, 0));
    let positive = bits(&format!("0{groups}"));
    assert_eq!(value::read(3, 0, 0, &positive, 41, 0), Err(13));
}

#[test]
fn root_of_an_empty_type() {
    let table = [1, 1, 0, 0, 1, 0, 0, 0, 0, 0, 0];
    let answer = read(&table, 5, 0, &[0x0f], 2048, 8192);
    answer.accepted(0, &[[1, 5, 0, 0], [6, 0, 0, 0]], b"", 8);
    read(&table, 5, 0, &[0x0f, 0], 2048, 8192).refused(17, 8, &[]);
}

#[test]
fn worked_example() {
    let table = worked_table();
    let answer = read(&table, 10, 0, &WORKED_PAYLOAD, 2048, 8192);
    answer.accepted(2, &WORKED_EVENTS, b"Hi", 68);
    let written = write(&table, 10, 0, 2, &WORKED_EVENTS, b"Hi", 9);
    assert_eq!(written.answer.number, 0);
    assert_eq!(written.payload, WORKED_PAYLOAD);
    assert_eq!(written.answer.mode, 2);
    assert_eq!(written.answer.events, 14);
    assert_eq!(written.answer.text, 2);
    assert_eq!(written.answer.bits, 68);
}

#[test]
fn worked_example_as_the_listing_program_prints_it() {
    let mut input = vec![];
    let table = worked_table();
    input.extend((table.len() as u32).to_be_bytes());
    for word in table {
        input.extend(word.to_be_bytes());
    }
    input.extend([0, 10, 0, 0]);
    let head = input.len();
    input.extend(WORKED_PAYLOAD);
    let expected = "events 14 text 2 bits 68\n\
        1 10 1 10\n2 20 1 1\n3 4294967295 0 3\n1 11 1 10\n3 2 0 21\n6 0 0 0\n5 2 0 3\n\
        1 12 1 5\n3 1 0 1\n6 0 0 0\n1 12 1 5\n3 0 0 1\n6 0 0 0\n6 0 0 0\n";
    assert_eq!(listing(&input), expected);
    assert_eq!(listing(&input[..head]), "refused 3 0\n");
    assert_eq!(listing(&input[..head - 1]), "refused 1 0\n");
    assert_eq!(listing(&input[..3]), "refused 1 0\n");
    input[head + 8] = 0x21;
    assert_eq!(listing(&input), "refused 17 68\n");
    input.resize(head + 8193, 0);
    assert_eq!(listing(&input), "refused 3 0\n");
    // 14,599 words, all there, are over the limit whatever their header says; 14,598 are the table check's to judge.
    for (count, place) in [(14_599_u32, 0), (14_598, 14_598)] {
        let mut many = vec![0; 4 + 4 * 14_599 + 8];
        many[..4].copy_from_slice(&count.to_be_bytes());
        many[7] = 1;
        many[11] = 1;
        assert_eq!(listing(&many), format!("refused 1 {place}\n"));
    }
    // A wrong count within the limit is the table check's own refusal, at the words given.
    let short = [0, 0, 0, 2, 0, 0, 0, 1, 0, 0, 0, 1, 0, 0, 0, 0];
    assert_eq!(listing(&short), "refused 1 2\n");
}

#[test]
fn worked_example_with_the_text_not_held() {
    let mut table = worked_table();
    table[4 + 7 * 3] = 0;
    let mut expected = WORKED_EVENTS.to_vec();
    expected.splice(3..6, [[7, 11, 3, 31]]);
    assert_eq!(expected.len(), 12);
    let answer = read(&table, 10, 0, &WORKED_PAYLOAD, 2048, 8192);
    answer.accepted(2, &expected, b"", 68);
}

#[test]
fn worked_example_damaged() {
    let table = worked_table();
    let with = |changes: &[(usize, u8)]| {
        let mut payload = WORKED_PAYLOAD;
        for &(at, byte) in changes {
            payload[at] = byte;
        }
        read(&table, 10, 0, &payload, 2048, 8192)
    };
    with(&[(8, 0x21)]).refused(17, 68, &[]);
    with(&[(1, 0x8c), (2, 0x6a)]).refused(10, 62, &[10]);
    with(&[(1, 0x8c), (2, 0xea)]).refused(11, 18, &[10]);
}

#[test]
fn occurs_rows_word_for_word() {
    // Row, code, count or refusal number: the table of the readings.
    let cases: [(u32, u32, &str, Result<u32, u32>); 22] = [
        (1, 1, "", Ok(1)),
        (2, 2, "", Ok(2)),
        (0, 1, "0", Ok(0)),
        (0, 1, "1", Ok(1)),
        (1, 3, "00", Ok(1)),
        (1, 3, "01", Ok(2)),
        (1, 3, "10", Ok(3)),
        (1, 3, "11", Err(14)),
        (0, 3, "0", Ok(0)),
        (0, 3, "101", Ok(1)),
        (0, 3, "110", Ok(2)),
        (0, 3, "111", Ok(3)),
        (0, 3, "100", Err(14)),
        (0, 2, "100", Err(14)),
        (0, 2, "111", Err(14)),
        (0, 65_536, "0", Ok(0)),
        (0, 65_536, "100011", Ok(3)),
        (0, 65_536, "100000", Err(14)),
        (3, 65_536, "00000", Ok(3)),
        (0, 65_536, "11111000010000000000000000", Err(13)),
        (3, 65_536, "11101111111111111100", Ok(65_535)),
        (3, 65_536, "11101111111111111101", Err(13)),
    ];
    for (least, most, text, expected) in cases {
        let payload = bits(text);
        let read = codes::read_occurs(least, most, &payload, text.len(), 0);
        let expected = expected.map(|value| Taken { value, bits: text.len() });
        assert_eq!(read, expected, "{least}..{most} {text}");
        if let Ok(taken) = expected {
            let code = codes::write_occurs(least, most, taken.value).unwrap();
            assert_eq!(code.width as usize, text.len(), "{least}..{most} {text}");
            assert_eq!(u64::from_str_radix(text, 2).unwrap_or(0), code.bits);
        }
    }
}

#[test]
fn a_range_changes_its_code_between_spans_of_65535_and_65536() {
    let sixteen = bits("1111111111111111");
    assert_eq!(codes::read_range(-1, 65_534, &sixteen, 16, 0), Ok(Taken { value: 65_534, bits: 16 }));
    // 65,536 in five groups: 11110 0001 0000 0000 0000 0000.
    let five = bits("1111000010000000000000000");
    assert_eq!(codes::read_range(-1, 65_535, &five, 25, 0), Ok(Taken { value: 65_535, bits: 25 }));
    let over = bits("1111000010000000000000001");
    assert_eq!(codes::read_range(-1, 65_535, &over, 25, 0), Err(13));
    // All 32-bit values: c - b needs 32 bits.
    let all = bits("1111111011111111111111111111111111111111");
    assert_eq!(codes::read_range(i32::MIN, i32::MAX, &all, 40, 0), Ok(Taken { value: 0x7fff_ffff, bits: 40 }));
}

#[test]
fn widths() {
    for (choices, width) in [
        (1, 0),
        (2, 1),
        (3, 2),
        (4, 2),
        (5, 3),
        (64, 6),
        (65, 7),
        (65_535, 16),
        (65_536, 16),
        (65_537, 17),
        (1 << 32, 32),
    ] {
        assert_eq!(codes::width(choices), width, "{choices}");
    }
}

#[test]
fn a_text_is_counted_in_bytes_by_vluimsbf5() {
    let table = table_of(&[[1, 1, 0, 0, 5, 0, 0]], &[], &[]);
    // 0F, then 00011, then "\u{20ac}" (E2 82 AC), then 3 bits of padding.
    let payload = bits("0000111100011111000101000001010101100000");
    let answer: Read = read(&table, 1, 0, &payload, 3, 3);
    answer.accepted(0, &[[1, 1, 0, 0], [3, 3, 0, 29], [6, 0, 0, 0]], "\u{20ac}".as_bytes(), 37);
}
