//! The start-up message: the examples of request 8's page as literals, and which messages are accepted, by trying all small ones.

use peer::bim;
use peer::calls::{self, decode_message, message_seeds, shelves, MessageCase};
use peer::init;
use peer::meaning::{Codec, Flags, Meaning, Schema};
use peer::message_cases;
use peer::words::{big_endian, words_of};
use std::collections::BTreeSet;

const M1: [u8; 26] = [
    0x00, 0x0f, 0x01, 0x08, 0x01, 0x03, 0x61, 0x3a, 0x62, 0x01, 0x68, 0x01, 0x02, 0x63, 0x64, 0x02, 0x05, 0x81, 0x00,
    0x02, 0x01, 0xe1, 0x03, 0xaa, 0xbb, 0xcc,
];
const M1_WORDS: [u32; 17] = [0, 0, 0, 1, 4, 0, 1, 5, 20, 2, 23, 3, 6, 3, 10, 1, 1];
const M1_CODECS: [u32; 5] = [13, 2, 2, 5, 128];

/// Reads in room for so many words: the number, `init`, `codecs`.
fn read(message: &[u8], room: usize) -> (u32, Vec<u32>, Vec<u32>) {
    let (mut codecs, mut init) = (vec![0xdd; 4 * room], [0xdd; bim::INIT]);
    let number = init::read(message, &mut codecs, &mut init);
    (number, words_of(&init), words_of(&codecs))
}

/// Writes into this room: the number, the area's words, the message.
fn write(init: &[u32], codecs: &[u32], given: &[u8], room: usize) -> (u32, Vec<u32>, Vec<u8>) {
    let (mut message, mut area) = (vec![0xdd; room], [0xdd; bim::INIT_AREA]);
    let number = init::write(&big_endian(init), &big_endian(codecs), given, &mut message, &mut area);
    (number, words_of(&area), message)
}

fn whole(words: &[u32]) -> Vec<u32> {
    let mut words = words.to_vec();
    words.resize(init::WORDS, 0);
    words
}

fn bytes(hex: &str) -> Vec<u8> {
    peer::words::unhex(&hex.replace(' ', "").to_lowercase()).unwrap()
}

#[test]
fn m1_is_read_and_written_back() {
    assert_eq!(read(&M1, 5), (0, whole(&M1_WORDS), M1_CODECS.to_vec()));
    assert_eq!(write(&whole(&M1_WORDS), &M1_CODECS, &M1, 26), (0, vec![0, 26], M1.to_vec()));
    let meaning = Meaning {
        profile: 0,
        unit: 0,
        flags: Some(Flags { length: 1, set: bim::FRAGMENT_REFERENCE_FLAG }),
        schemas: vec![Schema {
            uri: b"a:b".to_vec(),
            hint: b"h".to_vec(),
            codecs: vec![Codec { uri: b"cd".to_vec(), types: vec![5, 128] }],
        }],
        formats: vec![1, 225],
        description: vec![0xaa, 0xbb, 0xcc],
    };
    assert_eq!(meaning.spelt().bytes(), M1);
    assert_eq!(Meaning::said(&whole(&M1_WORDS), &M1_CODECS, &M1), Some(meaning));
}

#[test]
fn the_pages_messages_are_read() {
    let accepted: [(&str, &[u32]); 3] = [
        ("00 1F 01 01 75 00 00 00", &[0, 0, 0, 0, 0, 0, 1, 0, 0, 0, 8, 0, 4, 1, 6, 0, 0]),
        (
            "81 00 5F 02 01 75 00 00 02 76 77 00 00 00",
            &[0, 128, 2, 0, 0, 0, 2, 0, 0, 0, 14, 0, 5, 1, 7, 0, 0, 9, 2, 12, 0, 0],
        ),
        ("00 0F 02 09 FF 01 01 75 00 00 00 00", &[0, 0, 0, 9, 4, 1, 1, 0, 11, 0, 12, 0, 7, 1, 9, 0, 0]),
    ];
    for (message, words) in accepted {
        assert_eq!(read(&bytes(message), 0), (0, whole(words), vec![]), "{message}");
    }
    let odd = bytes(accepted[2].0);
    assert_eq!(write(&whole(accepted[2].1), &[], &odd, 12), (20, vec![5, 0], vec![0; 12]));

    let refused = [
        ("", 5, 0),
        ("00", 5, 8),
        ("00 1F 01 05 75 00", 5, 24),
        ("80 05 1F", 12, 0),
        ("00 1F 81 80 00", 13, 16),
        ("00 FF 01 01 75 00 00 00", 14, 8),
        ("00 0F 00 01", 14, 16),
        ("00 1F 01 00 00 00 00", 14, 24),
        ("00 1F 01 01 75 00 00 00 00", 17, 64),
        ("00 17 01", 28, 8),
        ("00 F7", 28, 8),
        ("00 1F 00 00", 29, 16),
        ("00 1F 05 01 75", 30, 16),
        ("00 0F 01 40 01 20", 34, 24),
        ("00 0F 01 10 01 20", 34, 24),
        ("00 0F 02 40", 5, 24),
    ];
    for (message, number, place) in refused {
        assert_eq!(read(&bytes(message), 4), (number, whole(&[place]), vec![0; 4]), "{message}");
    }
    assert_eq!(read(&M1, 4), (7, whole(&[136]), vec![0; 4]));
}

#[test]
fn m1_with_words_changed_is_refused() {
    let changed = [
        (1, 16_384, 20, 1),
        (2, 7, 20, 2),
        (3, 2, 20, 3),
        (3, 0, 20, 4),
        (5, 1, 20, 5),
        (13, 0, 20, 13),
        (9, 256, 20, 9),
        (4, 36, 34, 4),
        (6, 0, 29, 6),
        (6, 5, 30, 6),
        (12, 24, 23, 13),
        (4, 0, 20, 9),
        (16, 2, 18, 37),
        (16, 0, 18, 32),
        (7, 6, 18, 7),
    ];
    for (word, value, number, place) in changed {
        let mut words = whole(&M1_WORDS);
        words[word] = value;
        assert_eq!(write(&words, &M1_CODECS, &M1, 26), (number, vec![place, 0], vec![0; 26]), "word {word} is {value}");
    }
    let codecs = [13, 2, 2, 5, 16_384];
    assert_eq!(write(&whole(&M1_WORDS), &codecs, &M1, 26), (20, vec![36, 0], vec![0; 26]));
    assert_eq!(write(&whole(&M1_WORDS)[..31], &M1_CODECS, &M1, 26), (18, vec![0, 0], vec![0; 26]));
    assert_eq!(write(&whole(&M1_WORDS), &M1_CODECS, &M1, 25), (21, vec![0, 0], vec![0; 25]));
}

#[test]
fn areas_of_another_size_are_24_before_all() {
    for size in [0, 4, 127, 129, 152] {
        let (mut codecs, mut init) = ([0xdd; 20], vec![0xdd; size]);
        assert_eq!(init::read(&M1, &mut codecs, &mut init), 24);
        assert_eq!((codecs, init), ([0; 20], vec![0; size]));
    }
    for size in [0, 7, 9, 128] {
        let (mut message, mut area) = ([0xdd; 26], vec![0xdd; size]);
        assert_eq!(init::write(&[], &[], &[], &mut message, &mut area), 24);
        assert_eq!((message, area), ([0; 26], vec![0; size]));
    }
}

#[test]
fn the_named_cases_are_answered_as_by_hand() {
    for case in message_cases::all() {
        let left = peer::calls::on_message_peer(&case.call);
        let words = left.words();
        let bytes = if matches!(case.call, MessageCase::Write { .. }) { words[1] } else { 0 };
        assert_eq!([left.number, words[0], bytes], case.answer, "{}", case.name);
    }
    assert!(message_cases::all().len() > 150);
}

/// All texts of up to so many of these letters.
fn texts(most: usize, letters: &[u8]) -> Vec<Vec<u8>> {
    let mut all = vec![vec![]];
    let mut from = 0;
    for _ in 0..most {
        let to = all.len();
        for index in from..to {
            let longer = letters.iter().map(|&letter| [&all[index][..], &[letter]].concat()).collect::<Vec<_>>();
            all.extend(longer);
        }
        from = to;
    }
    all
}

/// Of all messages of some letters exactly those are accepted that are the spelling of a meaning, but for bits stepped over: the meanings
/// are listed here, the messages tried one by one.
#[test]
fn of_all_small_messages_those_that_are_spelt_are_accepted() {
    const LETTERS: [u8; 6] = [0x00, 0x01, 0x02, 0x0f, 0x1f, 0x81];
    const MOST: usize = 10;
    // The least message of the first form has 8 bytes, of the other 10: what is left goes to a profile of two, to the texts, to codecs.
    let profiles = [0, 1, 2, 15, 31, 128, 129, 130, 143, 159];
    let forms = [(None, 0)].into_iter().chain(
        [(1, 0), (1, 1), (1, 7), (2, 0), (2, 1), (2, 7)].map(|(length, set)| (Some(Flags { length, set }), set)),
    );
    // A codec takes two bytes besides its URI and types, which is all that is left.
    let codec_lists = [vec![], vec![Codec { uri: vec![], types: vec![] }]];
    let mut spelt = BTreeSet::new();
    for (flags, set) in forms {
        for profile in profiles {
            for texts in three_texts(MOST - 8, &LETTERS) {
                for codecs in &codec_lists {
                    let [uri, hint, description] = texts.clone();
                    let schema = Schema { uri, hint, codecs: codecs.clone() };
                    let formats = vec![];
                    let meaning = Meaning { profile, unit: 0, flags, schemas: vec![schema], formats, description };
                    let bytes = meaning.spelt().bytes();
                    if set & bim::FRAGMENT_REFERENCE_FLAG == 0
                        && bytes.len() <= MOST
                        && bytes.iter().all(|byte| LETTERS.contains(byte))
                    {
                        spelt.insert(bytes);
                    }
                }
            }
        }
    }
    let (mut accepted, mut tried) = (BTreeSet::new(), 0_u64);
    each(&mut vec![], MOST, &LETTERS, &mut |message| {
        tried += 1;
        let (number, mut init, codecs) = read(message, 8);
        if number == bim::ACCEPTED {
            init[init::FIRST_STEPPED] = 0;
            let meaning = Meaning::said(&init, &codecs, message).expect("accepted, and says nothing");
            assert!(meaning.spelt().stepped_in(message).is_some(), "{message:02x?} is accepted and not spelt");
            accepted.insert(meaning.spelt().bytes());
        }
        // What is refused otherwise than for its end is refused however it goes on; what is accepted begins no other.
        number == bim::PAST_END
    });
    println!("{tried} messages tried, {} accepted, {} meanings listed", accepted.len(), spelt.len());
    assert!(tried > 100_000 && spelt.len() > 1000);
    // A byte stepped over may be any letter, so that its zeros need not be letters.
    assert_eq!(
        accepted
            .iter()
            .filter(|bytes| bytes.iter().all(|byte| LETTERS.contains(byte)))
            .cloned()
            .collect::<BTreeSet<_>>(),
        spelt
    );
}

/// A fuzzer's bytes are of one call: its first byte says whether of a message, of a shelf, or of the others.
#[test]
fn the_fuzzers_first_bytes_differ() {
    let of = |bytes: &Vec<u8>| (decode_message(bytes).is_some(), shelves::decode(bytes).is_some());
    assert!(message_seeds().iter().all(|bytes| of(bytes) == (true, false)));
    assert!(shelves::seeds().iter().all(|bytes| of(bytes) == (false, true)));
    assert!(calls::seeds().iter().all(|bytes| of(bytes) == (false, false)));
}

/// A URI of at least a byte, a hint and a description, of so many bytes more than one together.
fn three_texts(more: usize, letters: &[u8]) -> Vec<[Vec<u8>; 3]> {
    let mut all = vec![];
    for uri in texts(more + 1, letters).into_iter().filter(|uri| !uri.is_empty()) {
        for hint in texts(more + 1 - uri.len(), letters) {
            for description in texts(more + 1 - uri.len() - hint.len(), letters) {
                all.push([uri.clone(), hint.clone(), description]);
            }
        }
    }
    all
}

/// Tries a message and all that begin with it, as long as `goes_on` says so.
fn each(message: &mut Vec<u8>, most: usize, letters: &[u8], goes_on: &mut impl FnMut(&[u8]) -> bool) {
    if goes_on(message) && message.len() < most {
        for &letter in letters {
            message.push(letter);
            each(message, most, letters, goes_on);
            message.pop();
        }
    }
}
