//! The C boundary byte for byte: areas, 24, bytes over the last whole word, and where places stop.

mod common;

use common::{worked_table, WORKED_EVENTS, WORKED_PAYLOAD};
use peer::host;
use peer::words::big_endian;

/// An area of these six words and these names.
fn area(words: [u32; 6], names: &[u16]) -> Vec<u8> {
    let mut bytes = big_endian(&words);
    bytes.extend(names.iter().flat_map(|name| name.to_be_bytes()));
    bytes.resize(152, 0);
    bytes
}

struct Read {
    number: u32,
    events: Vec<u8>,
    texts: Vec<u8>,
    area: Vec<u8>,
}

fn read(table: &[u8], root_type: u32, payload: &[u8], rooms: (usize, usize, usize)) -> Read {
    let mut events = vec![0xdd; rooms.0];
    let mut texts = vec![0xdd; rooms.1];
    let mut area = vec![0xdd; rooms.2];
    let number = host::read(table, 0, 10, root_type, payload, &mut events, &mut texts, &mut area);
    Read { number, events, texts, area }
}

#[test]
fn a_read_fills_events_texts_and_area() {
    let table = big_endian(&worked_table());
    let read = read(&table, 0, &WORKED_PAYLOAD, (16 * 14 + 15, 3, 152));
    assert_eq!(read.number, 0);
    let mut events = big_endian(&WORKED_EVENTS.concat());
    events.resize(16 * 14 + 15, 0);
    assert_eq!(read.events, events);
    assert_eq!(read.texts, b"Hi\0");
    assert_eq!(read.area, area([0, 2, 14, 2, 68, 0], &[]));
}

#[test]
fn a_refused_read_has_an_area_with_its_path_and_no_output() {
    let table = big_endian(&worked_table());
    // Room for 13 events: 15 bytes short of the 14th.
    let refused = read(&table, 0, &WORKED_PAYLOAD, (16 * 14 - 1, 2, 152));
    assert_eq!(refused.number, 7);
    assert_eq!(refused.area, area([68, 0, 0, 0, 0, 1], &[10]));
    assert_eq!(refused.events, vec![0; 16 * 14 - 1]);
    assert_eq!(refused.texts, [0, 0]);
    let refused = read(&table, 0, &WORKED_PAYLOAD, (16 * 14, 1, 152));
    assert_eq!(refused.number, 8);
    assert_eq!(refused.area, area([32, 0, 0, 0, 0, 2], &[10, 11]));
}

#[test]
fn event_room_stops_at_2048() {
    // A root 10 over 1,023 empty elements: 2,049 events.
    let table = [1, 2, 0, 2, 1, 2, 0, 0, 0, 0, 0, 1, 0, 0, 0, 0, 0, 0, 3, 1, 0, 65_536, 0, 2, 1, 0];
    let payload = [0x0f, 0b1110_0011, 0b1111_1111];
    let refused = read(&big_endian(&table), 0, &payload, (16 * 3000, 0, 152));
    assert_eq!(refused.number, 7);
    assert_eq!(refused.area, area([24, 0, 0, 0, 0, 1], &[10]));
    assert!(refused.events.iter().all(|&byte| byte == 0));
}

#[test]
fn an_area_of_another_size_is_24_before_all_else() {
    let table = big_endian(&worked_table());
    for size in [0, 1, 151, 153, 304] {
        let refused = read(&[], 99, &[], (40, 7, size));
        assert_eq!(refused.number, 24);
        assert_eq!(refused.area, vec![0; size]);
        assert_eq!(refused.events, vec![0; 40]);
        assert_eq!(refused.texts, vec![0; 7]);

        let mut area = vec![0xdd; size];
        assert_eq!(host::check_table(&table, &mut area), 24);
        assert_eq!(area, vec![0; size]);

        let mut area = vec![0xdd; size];
        let mut payload = vec![0xdd; 9];
        let events = big_endian(&WORKED_EVENTS.concat());
        let number = host::write(&table, 0, 10, 0, 2, &events, b"Hi", &mut payload, &mut area);
        assert_eq!(number, 24);
        assert_eq!(area, vec![0; size]);
        assert_eq!(payload, vec![0; 9]);
    }
}

#[test]
fn a_table_of_odd_bytes_is_1_at_its_whole_words_after_its_header() {
    let check = |table: &[u8]| {
        let mut out = vec![0xdd; 152];
        let number = host::check_table(table, &mut out);
        let place = u32::from_be_bytes([out[0], out[1], out[2], out[3]]);
        assert!(out[4..].iter().all(|&byte| byte == 0));
        (number, place)
    };
    let table = big_endian(&worked_table());
    assert_eq!(check(&table), (0, 0));
    for more in 1..4 {
        let mut odd = table.clone();
        odd.extend(vec![0; more]);
        assert_eq!(check(&odd), (1, 51));
        // A wrong row does not show; a wrong header word does.
        odd[4 * 9 + 3] = 1;
        assert_eq!(check(&odd), (1, 51));
        odd[4 * 2] = 0xff;
        assert_eq!(check(&odd), (1, 2));
        let refused = read(&odd, 0, &WORKED_PAYLOAD, (16, 2, 152));
        assert_eq!(refused.number, 1);
        assert_eq!(refused.area, area([2, 0, 0, 0, 0, 0], &[]));
        assert_eq!((refused.events, refused.texts), (vec![0; 16], vec![0; 2]));
    }
    assert_eq!(check(&table[..3]), (1, 0));
    assert_eq!(check(&table[..15]), (1, 3));
    // The second header word is not whole, so it is not judged.
    assert_eq!(check(&[0, 0, 0, 1, 0xff]), (1, 1));
    assert_eq!(check(&[0, 0, 0, 2, 0xff]), (1, 1));
    assert_eq!(check(&[0, 0, 0, 3, 0xff]), (1, 0));
    // A word over the most: of no row behind the header is anything said.
    let mut large = big_endian(&[2, 256, 1024, 1024, 7]);
    large.resize(4 * 14_599, 0);
    assert_eq!(check(&large), (1, 14_599));
    large[0] = 1;
    assert_eq!(check(&large), (1, 0));
}

#[test]
fn a_write_fills_payload_and_area() {
    let table = big_endian(&worked_table());
    let events = big_endian(&WORKED_EVENTS.concat());
    let write = |mode: u32, root_type: u32, events: &[u8], texts: &[u8], room: usize| {
        let mut payload = vec![0xdd; room];
        let mut out = vec![0xdd; 152];
        let number = host::write(&table, 0, 10, root_type, mode, events, texts, &mut payload, &mut out);
        (number, out, payload)
    };
    let mut padded = WORKED_PAYLOAD.to_vec();
    padded.push(0);
    assert_eq!(write(2, 0, &events, b"Hi", 10), (0, area([0, 2, 14, 2, 68, 0], &[]), padded));
    let refused = |number, place| (number, area([place, 0, 0, 0, 0, 0], &[]), vec![0; 10]);
    assert_eq!(write(2, 0, &events, b"Hi!", 10), refused(23, 14));
    // Bytes that are no whole events: after 1, 2 and 22.
    for less in [1, 3, 4, 12, 15] {
        let short = &events[..events.len() - less];
        assert_eq!(write(2, 0, short, b"Hi", 10), refused(18, 13));
        assert_eq!(write(3, 0, short, b"Hi", 10), refused(22, 0));
        assert_eq!(write(3, 4, short, b"Hi", 10), refused(2, 0));
    }
    assert_eq!(write(2, 0, &events[..3], b"Hi", 10), refused(18, 0));
    let many = vec![0; 16 * 2049];
    assert_eq!(write(2, 0, &many, b"Hi", 10), refused(18, 2049));
    assert_eq!(write(2, 0, &vec![0; 16 * 2049 + 15], b"Hi", 10), refused(18, 2049));
    assert_eq!(write(2, 0, &many[..16 * 2048], b"Hi", 10), refused(18, 0));
}

/// The table of the page on the short call: one boolean, and a root of it.
const BOOLEAN: [u32; 11] = [1, 1, 0, 0, 1, 1, 0, 0, 0, 0, 0];

#[test]
fn the_short_call_writes_in_mode_2() {
    let table = big_endian(&BOOLEAN);
    let write = |list: &[[u32; 4]], room: usize, area: usize| {
        let (mut payload, mut out) = (vec![0xdd; room], vec![0xdd; area]);
        let number = host::write_lengths(&table, 0, 1, 0, &big_endian(&list.concat()), b"", &mut payload, &mut out);
        (number, out, payload)
    };
    let refused = |number, place, room| (number, area([place, 0, 0, 0, 0, 0], &[]), vec![0; room]);
    let list = [[1, 1, 1, 0], [3, 1, 0, 0], [6, 0, 0, 0]];
    assert_eq!(write(&list, 3, 152), (0, area([0, 2, 3, 0, 14, 0], &[]), vec![0x8f, 0x0c, 0]));
    assert_eq!(write(&[[1, 1, 0, 0], list[1], list[2]], 3, 152), refused(18, 0, 3));
    assert_eq!(write(&[[7, 1, 0, 0]], 3, 152), refused(19, 0, 3));
    assert_eq!(write(&[], 3, 152), refused(18, 0, 3));
    assert_eq!(write(&list, 1, 152), refused(21, 0, 1));
    assert_eq!(write(&list, 3, 151), (24, vec![0; 151], vec![0; 3]));
    let (mut payload, mut out) = (vec![0xdd; 3], vec![0xdd; 152]);
    let number = host::write(&table, 0, 1, 0, 0, &big_endian(&list.concat()), b"", &mut payload, &mut out);
    assert_eq!((number, out, payload), refused(18, 0, 3));
}

#[test]
fn places_stop_at_2_to_the_32_less_1() {
    assert_eq!(host::place_word(0), 0);
    assert_eq!(host::place_word((1 << 32) - 1), u32::MAX);
    assert_eq!(host::place_word(1 << 32), u32::MAX);
    assert_eq!(host::place_word(u64::MAX), u32::MAX);
}
