//! A case of the start-up message as a fuzzer's bytes, and changed in one way. Its first byte is none that `decode` of the other calls would
//! need: those tell the calls apart by small ones.

use super::coded::{put_word, Rest};
use super::messages::{on_message_peer, other_word, MessageCase};
use crate::bim;
use crate::init;
use crate::meaning::{any_meaning, faulty};
use crate::message_cases;
use crate::rng::Rng;
use crate::words::{big_endian, words_of};

const READ: u8 = 0xfe;
const WRITE: u8 = 0xff;
/// The most words, and the most room: somewhat more than a small message can use.
const MOST_WORDS: usize = 4000;
const MOST_ROOM: usize = 40_000;

/// The case that these bytes code; none where they code another call's.
pub fn decode(bytes: &[u8]) -> Option<MessageCase> {
    let mut rest = Rest(bytes);
    let reads = match rest.byte() {
        READ => true,
        WRITE => false,
        _ => return None,
    };
    let room = rest.word() as usize % (MOST_ROOM + 1);
    // 0 is the right area; any other word less 1 is another one's size.
    let area = rest.word() as usize % 200;
    let area_or = |right: usize| if area == 0 { right } else { area - 1 };
    if reads {
        return Some(MessageCase::Read { message: rest.0.to_vec(), rooms: [room, area_or(bim::INIT)] });
    }
    let mut words = |most: usize| {
        let number = rest.word() as usize % (most + 1);
        let words: Vec<_> = (0..number).map(|_| rest.word()).collect();
        big_endian(&words)
    };
    let (init, codecs) = (words(2 * init::WORDS), words(MOST_WORDS));
    Some(MessageCase::Write { inputs: [init, codecs, rest.0.to_vec()], rooms: [room, area_or(bim::INIT_AREA)] })
}

/// The bytes that code this case, where its rooms and words are within the limits and its words whole.
pub fn code(case: &MessageCase) -> Vec<u8> {
    let mut bytes = vec![];
    let put_rooms = |bytes: &mut Vec<u8>, first: u8, rooms: &[usize; 2], right: usize| {
        bytes.push(first);
        put_word(bytes, rooms[0] as u32);
        put_word(bytes, if rooms[1] == right { 0 } else { rooms[1] as u32 + 1 });
    };
    match case {
        MessageCase::Read { message, rooms } => {
            put_rooms(&mut bytes, READ, rooms, bim::INIT);
            bytes.extend(message);
        }
        MessageCase::Write { inputs: [init, codecs, given], rooms } => {
            put_rooms(&mut bytes, WRITE, rooms, bim::INIT_AREA);
            for words in [init, codecs].map(|words| words_of(words)) {
                put_word(&mut bytes, words.len() as u32);
                words.into_iter().for_each(|word| put_word(&mut bytes, word));
            }
            bytes.extend(given);
        }
    }
    bytes
}

/// Changes the case.
pub fn change(rng: &mut Rng, case: &mut MessageCase) {
    match rng.below(8) {
        0 => *case = fresh(rng),
        1..=2 => turn(rng, case),
        3 => {
            let (MessageCase::Read { rooms, .. } | MessageCase::Write { rooms, .. }) = case;
            let room = &mut rooms[usize::from(rng.one_in(8))];
            *room = rng.pick(&[0, room.saturating_sub(1), *room + 1, room.saturating_sub(4), *room + 4, 4000]);
        }
        _ => change_content(rng, case),
    }
}

/// A meaning to be read, with a fault or without, or to be written.
fn fresh(rng: &mut Rng) -> MessageCase {
    let spelt = any_meaning(rng).spelt();
    let message = spelt.bytes();
    match rng.below(3) {
        0 => MessageCase::read(&message, spelt.codecs.len()),
        1 => {
            let fault = faulty(rng, &spelt);
            MessageCase::read(&fault.message, fault.room)
        }
        _ => MessageCase::write(&spelt.init, &spelt.codecs, &message, message.len()),
    }
}

/// What was read to be written, and what is written to be read.
fn turn(rng: &mut Rng, case: &mut MessageCase) {
    let left = on_message_peer(case);
    if !left.is_accepted() {
        return change_content(rng, case);
    }
    let words = left.words();
    *case = match case {
        MessageCase::Read { message, .. } => {
            let codecs = words_of(&left.outputs[0]);
            MessageCase::write(&words, &codecs[..words[init::CODEC_WORDS] as usize], message, message.len())
        }
        MessageCase::Write { inputs, .. } => {
            MessageCase::read(&left.outputs[0][..words[1] as usize], inputs[1].len() / 4)
        }
    };
}

/// A byte missing, repeated or another; a word another.
fn change_content(rng: &mut Rng, case: &mut MessageCase) {
    match case {
        MessageCase::Read { message: bytes, .. } | MessageCase::Write { inputs: [_, _, bytes], .. }
            if rng.one_in(3) && !bytes.is_empty() =>
        {
            let at = rng.below(bytes.len());
            match rng.below(3) {
                0 => drop(bytes.remove(at)),
                1 => bytes.insert(at, bytes[at]),
                _ => {
                    bytes[at] =
                        rng.pick(&[0, 1, 2, 0x0f, 0x1f, 0x7f, 0x80, 0x81, bytes[at] ^ 1 << rng.clone().below(8)])
                }
            }
        }
        MessageCase::Read { message, .. } if !message.is_empty() => {
            let at = rng.below(message.len());
            message[at] ^= 1 << rng.below(8);
        }
        MessageCase::Write { inputs: [init, codecs, given], .. } => {
            let bytes = given.len() as u32;
            let words = if codecs.len() < 4 || rng.one_in(2) { init } else { codecs };
            let mut list = words_of(words);
            if !list.is_empty() {
                let at = rng.below(list.len());
                list[at] = other_word(rng, list[at], bytes);
            }
            *words = big_endian(&list);
        }
        _ => *case = fresh(rng),
    }
}

/// The named cases as a fuzzer's first bytes: those that code themselves.
pub fn seeds() -> Vec<Vec<u8>> {
    let coded = message_cases::all().iter().map(|case| (code(&case.call), &case.call));
    coded.filter(|(bytes, call)| decode(bytes).as_ref() == Some(call)).map(|(bytes, _)| bytes).collect()
}

#[cfg(test)]
mod tests {
    use super::*;

    #[test]
    fn named_cases_are_seeds() {
        let (seeds, named) = (seeds().len(), message_cases::all().len());
        assert!(seeds * 20 > named * 19, "{seeds} of {named}");
    }

    #[test]
    fn changed_cases_code_themselves() {
        let mut rng = Rng::new(1);
        let mut accepted = 0;
        for _ in 0..3000 {
            let mut case = fresh(&mut rng);
            for _ in 0..rng.below(6) {
                change(&mut rng, &mut case);
            }
            let bytes = code(&case);
            if let Some(again) = decode(&bytes).filter(|again| *again == case) {
                accepted += u32::from(on_message_peer(&again).is_accepted());
            }
            let noise: Vec<_> = (0..rng.below(60)).map(|_| rng.word() as u8).collect();
            assert!(
                decode(&[&[READ], &noise[..]].concat()).is_some() && decode(&[&[WRITE], &noise[..]].concat()).is_some()
            );
        }
        assert!(accepted > 500, "{accepted}");
    }
}
