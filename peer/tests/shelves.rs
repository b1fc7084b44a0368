//! The examples of requests 12 and 13 as they stand on the pages, and the theorems on seeded files.

use peer::bim;
use peer::rng::Rng;
use peer::shelf::damage::{any_stream, Damage};
use peer::shelf::file::{mend, sum};
use peer::shelf::laws::{self, judge, Call, Met, Said};
use peer::shelf::record;
use peer::words::unhex;

/// Asked with rooms that are never too small.
fn ask(call: Call, given: &[u8]) -> Said {
    judge(call, given, &call.rooms(given))
}

/// Number and place.
fn refused(call: Call, given: &[u8]) -> (u32, u32) {
    let said = ask(call, given);
    assert!(said.outputs.concat().iter().all(|&byte| byte == 0) && said.counts == Default::default());
    (said.number, said.place)
}

fn file_of(stream: &[u8]) -> Vec<u8> {
    let said = ask(Call::Write, stream);
    assert_eq!((said.number, said.place, said.counts.stream), (0, 0, stream.len() as u64));
    said.outputs[0].clone()
}

/// Five records, record k with root name k, type 0 and 600, 100, 900, 10, 300 bytes of value k + 1.
fn five_records() -> Vec<Vec<u8>> {
    let sizes = [600, 100, 900, 10, 300];
    (0..5).map(|k| record(k as u16, 0, &vec![k as u8 + 1; sizes[k]])).collect()
}

fn five() -> Vec<u8> {
    file_of(&five_records().concat())
}

/// The file with these bytes at this offset of a block.
fn changed(mut file: Vec<u8>, block: usize, at: usize, bytes: &[u8]) -> Vec<u8> {
    file[512 * block + at..512 * block + at + bytes.len()].copy_from_slice(bytes);
    file
}

fn mended(file: Vec<u8>, block: usize, at: usize, bytes: &[u8]) -> Vec<u8> {
    let mut file = changed(file, block, at, bytes);
    mend(&mut file[512 * block..512 * block + 512]);
    file
}

fn without(mut file: Vec<u8>, block: usize) -> Vec<u8> {
    file.drain(512 * block..512 * block + 512);
    file
}

fn head_and_sum(file: &[u8], block: usize) -> String {
    let block = &file[512 * block..512 * block + 512];
    let hex = |bytes: &[u8]| peer::words::hex(bytes).to_uppercase();
    format!("{} {} {} {}", hex(&block[..4]), hex(&block[4..6]), hex(&block[6..8]), hex(&block[508..]))
}

#[test]
fn written_as_the_page_has_it() {
    let one = unhex("0002000100000f80").unwrap_or_default();
    let file = file_of(&one);
    assert_eq!((file.len(), head_and_sum(&file, 0).as_str()), (512, "00000000 0008 0000 000A0F81"));
    assert_eq!(file[8..16], one);
    assert!(file[16..508].iter().all(|&byte| byte == 0));
    assert_eq!(ask(Call::Write, &one).counts.records, 1);
    assert_eq!(ask(Call::Read, &file).outputs[0][..8], one);

    let file = five();
    assert_eq!(file.len(), 2048);
    let rows = [
        "00000000 01F2 0000 7FC57B7B",
        "00000001 01F2 006C 2278210E",
        "00000002 01F2 FFFF 7A6B7575",
        "00000003 01BE 007C E0D1E266",
    ];
    for (block, row) in rows.iter().enumerate() {
        assert_eq!(head_and_sum(&file, block), *row);
    }

    let stream = [record(7, 8, &[0; 486]), record(65535, 65535, &[])].concat();
    assert_eq!((stream.len(), head_and_sum(&file_of(&stream), 0).as_str()), (498, "00000000 01F2 0000 03E00006"));
    let file = file_of(&[record(7, 8, &[0; 491]), record(1, 2, b"A")].concat());
    assert_eq!(head_and_sum(&file, 0), "00000000 01F2 0000 03E50007");
    assert_eq!(head_and_sum(&file, 1), "00000001 0006 FFFF 03480100");
    assert_eq!(file[520..526], [1, 0, 1, 0, 2, 0x41]);
    for call in Call::ALL {
        let said = ask(call, &[]);
        assert_eq!((said.number, said.counts), (0, Default::default()));
    }
}

#[test]
fn refused_as_the_page_has_it() {
    let read = |file: &[u8]| refused(Call::Read, file);
    assert_eq!(read(&changed(five(), 2, 108, &[9])), (31, 2));
    assert_eq!(read(&changed(changed(five(), 1, 0, &[9]), 1, 511, &[9])), (31, 1));
    assert_eq!(read(&mended(five(), 1, 0, &[0, 0, 0, 9])), (32, 1));
    let file = five();
    assert_eq!(read(&[&file[..512], &file[1024..1536], &file[512..1024], &file[1536..]].concat()), (32, 1));
    let rows: [(usize, usize, &[u8], u32); 6] = [
        (1, 4, &497_u16.to_be_bytes(), 1),
        (3, 4, &[0, 0], 3),
        (1, 6, &107_u16.to_be_bytes(), 1),
        (2, 6, &[0, 0], 2),
        (3, 8 + 446, &[1], 3),
        (0, 506, &[1], 0),
    ];
    for (block, at, bytes, place) in rows {
        assert_eq!(read(&mended(five(), block, at, bytes)), (33, place));
    }
    // Record 1 begins at 606 of the stream, 108 of block 1.
    assert_eq!(read(&mended(five(), 1, 8 + 108, &8193_u16.to_be_bytes())), (33, 1));
    for (bytes, place) in [(1536, 2), (1636, 3), (100, 0)] {
        assert_eq!(read(&five()[..bytes]), (33, place));
    }
    assert_eq!(read(&[five(), vec![0]].concat()), (33, 4));
    assert_eq!(judge(Call::Read, &five(), &[1939]).number, 21);
    assert_eq!(judge(Call::Read, &five(), &[1940]).number, 0);
    assert_eq!(judge(Call::Write, &unhex("0002000100000f80").unwrap_or_default(), &[511]).number, 21);

    let write = |stream: &[u8]| refused(Call::Write, stream);
    for stream in ["00", "0002000100", "0002000100000f", "200100000000"] {
        assert_eq!(write(&unhex(stream).unwrap_or_default()), (33, 0));
    }
    assert_eq!(write(&five_records()[0][..499]), (33, 1));
    assert_eq!(write(&[record(7, 8, &[0; 491]), vec![0x20, 1]].concat()), (33, 1));
}

#[test]
fn salvaged_as_the_page_has_it() {
    let file = five();
    let cut = |bytes: usize| file[..bytes].to_vec();
    let one = file_of(&unhex("0002000100000f80").unwrap_or_default());
    let a = changed(five(), 1, 200, &[0xff]);
    let rows: [(&str, Vec<u8>, &[usize], &[[u32; 3]]); 14] = [
        ("a", a.clone(), &[3, 4], &[[0, 0, 498], [1, 31, 0], [2, 0, 498], [3, 0, 124]]),
        ("b", changed(five(), 2, 200, &[0xff]), &[0, 1, 3, 4], &[[1, 0, 284], [2, 31, 0], [3, 0, 124]]),
        ("c", without(five(), 2), &[0, 1], &[[1, 0, 284], [2, 32, 0]]),
        ("d", without(five(), 0), &[1, 2, 3, 4], &[[0, 0, 108]]),
        ("e", cut(1536), &[0, 1], &[[1, 0, 284], [2, 33, 0]]),
        ("f", cut(1636), &[0, 1], &[[1, 0, 284], [2, 0, 498], [3, 33, 0]]),
        ("g", without(a.clone(), 2), &[3, 4], &[[0, 0, 498], [1, 31, 0], [2, 0, 124]]),
        ("h", mended(five(), 3, 6, &[0, 125]), &[0, 1], &[[1, 0, 284], [2, 0, 498], [3, 33, 0]]),
        (
            "j",
            mended(five(), 1, 8 + 108, &8193_u16.to_be_bytes()),
            &[3, 4],
            &[[0, 0, 498], [1, 33, 0], [2, 0, 498], [3, 0, 124]],
        ),
        ("l", [five(), vec![7]].concat(), &[0, 1, 2, 3, 4], &[[4, 33, 0]]),
        ("k", [one, five()].concat(), &[0, 1, 2, 3, 4], &[[0, 33, 0]]),
        ("nothing", vec![], &[], &[]),
        ("itself", five(), &[0, 1, 2, 3, 4], &[]),
        // Two stretches around a bad block, though the numbers around it follow.
        (
            "two stretches",
            [cut(1024), vec![9; 512], file[1024..].to_vec()].concat(),
            &[0, 1, 3, 4],
            &[[1, 0, 284], [2, 31, 0], [3, 0, 498], [4, 0, 124]],
        ),
    ];
    for (name, damaged, kept, list) in rows {
        let said = ask(Call::Salvage, &damaged);
        assert_eq!((said.number, said.place), (0, 0), "{name}");
        let records: Vec<u8> = kept.iter().flat_map(|&k| five_records()[k].clone()).collect();
        let fresh = file_of(&records);
        assert_eq!(said.outputs[0][..fresh.len()], fresh, "{name}");
        let words: Vec<u8> = list.concat().iter().flat_map(|word| word.to_be_bytes()).collect();
        assert_eq!(said.outputs[1][..words.len()], words, "{name}");
        assert!(said.outputs[0][fresh.len()..].iter().chain(&said.outputs[1][words.len()..]).all(|&byte| byte == 0));
        let dropped: u64 = list.iter().map(|entry| u64::from(entry[2])).sum();
        let counts = [kept.len() as u64, records.len() as u64, fresh.len() as u64, list.len() as u64, dropped];
        let said = said.counts;
        assert_eq!([said.records, said.stream, said.file, said.entries, said.dropped], counts, "{name}");
    }
    // i: the changed byte comes with its record.
    let said = ask(Call::Salvage, &mended(five(), 3, 8 + 300, &[0x77]));
    assert_eq!((said.counts.records, said.counts.entries, said.outputs[0][1536 + 308]), (5, 0, 0x77));
    for rooms in [[511, 48], [2048, 47]] {
        let said = judge(Call::Salvage, &a, &rooms);
        assert_eq!((said.number, said.place), (21, 0));
        assert!(said.outputs.concat().iter().all(|&byte| byte == 0));
    }
    assert_eq!(judge(Call::Salvage, &a, &[512, 48]).number, 0);
}

#[test]
fn sums_wrap() {
    let block = [[0xff; 508].to_vec(), vec![0; 4]].concat();
    // 127 times -1.
    assert_eq!(sum(&block), (-127_i32) as u32);
}

#[test]
fn a_record_runs_over_17_block_ends() {
    let stream = [record(1, 1, &[5; 480]), record(2, 2, &[6; 8192]), record(3, 3, &[])].concat();
    let file = file_of(&stream);
    // It begins at 486 of block 0, and ends in block 17; the one behind it begins there.
    assert_eq!((486 + 8198) / 498, 17);
    for block in 1..17 {
        assert_eq!(file[512 * block + 6..512 * block + 8], [0xff, 0xff]);
    }
    assert_eq!(file.len(), 18 * 512);
    assert_eq!(ask(Call::Read, &file).outputs[0][..stream.len()], stream);
}

#[test]
fn the_laws_hold_of_the_judge() {
    let (mut met, mut rng) = (Met::default(), Rng::new(1));
    for round in 0..20_000 {
        if let Err(fault) = laws::trial(&mut |call, given, rooms| judge(call, given, rooms), &mut met, &mut rng) {
            panic!("round {round}: {fault}");
        }
    }
    for (kind, count) in Damage::ALL.iter().zip(met.damaged) {
        assert!(count > 100, "{kind:?}: {count}");
    }
    assert!(met.sound > 100 && met.parted > 1000 && met.without_start > 100, "{met:?}");
    assert!(met.reasons.iter().all(|&count| count > 1000), "{met:?}");
}

#[test]
fn records_of_every_size_are_written_and_read() {
    let mut rng = Rng::new(7);
    for length in (0..1100).chain(8180..=bim::MOST_PAYLOAD) {
        let stream = [record(1, 2, &vec![3; length]), any_stream(&mut rng)].concat();
        assert_eq!(laws::write_read(&mut |call, given, rooms| judge(call, given, rooms), &stream).err(), None);
    }
    let long = record(1, 2, &[3; bim::MOST_PAYLOAD + 1]);
    assert_eq!(refused(Call::Write, &long), (33, 0));
}
