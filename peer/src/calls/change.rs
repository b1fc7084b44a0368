//! A case changed in one way: what the fuzzer tries besides its own changes to the bytes, which make most cases refused early.

use super::bench::on_peer;
use super::case::{Call, Case};
use super::reading::root;
use crate::bim;
use crate::bits::{put_byte, put_word};
use crate::demands::text_places;
use crate::gen::{
    self, damage_date, damage_list, damage_payload, damage_table, let_go, padded_groups, table_and_sample, text_byte,
};
use crate::host;
use crate::padding::padded;
use crate::rng::Rng;
use crate::trials::any_setting;
use crate::words::{big_endian, words_of};

/// Changes the case.
pub fn change(rng: &mut Rng, case: &mut Case) {
    match rng.below(20) {
        16..=17 => other_party(rng, case),
        18..=19 => put_date(rng, case),
        0 => other_mode(rng, case),
        1 => case.root = root(rng, case.root, case.inputs[0].get(7).map_or(1, |&types| u32::from(types).max(1))),
        2 => other_room(rng, case),
        3 => change_table(rng, case),
        4..=6 => turn(rng, case),
        7 => other_flags(rng, case),
        8 if rng.one_in(4) => *case = fresh(rng),
        12..=13 => pad_lengths(rng, case),
        14..=15 => put_control(rng, case),
        _ => change_content(rng, case),
    }
}

/// Another party, or another party's mark of a type; now and then a table to be set in place of the call.
fn other_party(rng: &mut Rng, case: &mut Case) {
    let types = case.inputs[0].get(7).map_or(1, |&types| u32::from(types).max(1));
    let setting @ [party, ..] = any_setting(rng, types);
    match (case.call, rng.below(4)) {
        (Call::SetHeld, _) | (_, 0) => *case = Case::set(std::mem::take(&mut case.inputs[0]), setting),
        (_, 1) => case.party = party,
        _ => case.inputs[0] = on_peer(&Case::set(std::mem::take(&mut case.inputs[0]), setting)).outputs.swap_remove(0),
    }
}

/// Another mode; the other of the two calls that write.
fn other_mode(rng: &mut Rng, case: &mut Case) {
    case.mode = rng.below(8) as u32;
    match case.call {
        Call::Write if rng.one_in(3) => *case = case.clone().without_mode(),
        Call::WriteLengths => case.call = Call::Write,
        _ => {}
    }
}

/// A seeded case that is accepted.
fn fresh(rng: &mut Rng) -> Case {
    let (table, sample) = table_and_sample(rng, 0);
    if rng.one_in(2) {
        Case::read_sample(&table, &sample)
    } else {
        Case::write_sample(&table, &sample)
    }
}

/// Another room, for the area more rarely.
fn other_room(rng: &mut Rng, case: &mut Case) {
    let outputs = case.rooms.len() - usize::from(!rng.one_in(8));
    if outputs > 0 {
        let room = &mut case.rooms[rng.below(outputs)];
        *room = rng.pick(&[
            0,
            room.saturating_sub(1),
            *room + 1,
            room.saturating_sub(bim::EVENT),
            *room + bim::EVENT,
            bim::MOST_PAYLOAD,
            32_768,
        ]);
    }
}

/// Types let go, or a word changed.
fn change_table(rng: &mut Rng, case: &mut Case) {
    let right = host::check_table(&case.inputs[0], &mut [0; bim::AREA]) == 0;
    let mut words: Vec<_> = words_of(&case.inputs[0]);
    if right && rng.one_in(2) {
        let party = gen::any_party(rng);
        words = let_go(rng, party, &words, 5);
    } else if !words.is_empty() {
        damage_table(rng, &mut words);
    }
    case.inputs[0] = big_endian(&words);
}

/// A reading to be written, in any mode; what is written to be read; a table to be read with.
fn turn(rng: &mut Rng, case: &mut Case) {
    let left = on_peer(case);
    let mut turned = match case.call {
        Call::Check | Call::SetHeld => Case::read(&[], case.party, (1, 0), gen::noise(rng), 1600, 100),
        Call::Read => match (left.events(), left.texts()) {
            (Some(events), Some(texts)) if left.is_accepted() => {
                let room = case.inputs[1].len() + rng.below(60);
                let mode = if rng.one_in(2) { left.word(1) as u32 } else { rng.below(7) as u32 };
                let list = Case::write(&[], case.party, case.root, mode, events.to_vec(), texts.to_vec(), room);
                if rng.one_in(4) {
                    list.without_mode()
                } else {
                    list
                }
            }
            _ => return change_content(rng, case),
        },
        Call::Write | Call::WriteLengths => match left.outputs[0].get(..left.word(4).div_ceil(8)) {
            Some(payload) if left.is_accepted() => {
                Case::read(&[], case.party, case.root, payload.to_vec(), case.inputs[1].len(), case.inputs[2].len())
            }
            _ => return change_content(rng, case),
        },
    };
    turned.inputs[0] = std::mem::take(&mut case.inputs[0]);
    *case = turned;
}

/// The lengths of a payload padded; a list is written first.
fn pad_lengths(rng: &mut Rng, case: &mut Case) {
    if case.call == Call::Write {
        turn(rng, case);
    }
    let read = (case.call == Call::Read).then(|| (words_of(&case.inputs[0]), &case.inputs[1]));
    match read.and_then(|(table, payload)| {
        padded(&table, case.party, case.root, payload, |length| padded_groups(rng, length))
    }) {
        Some(payload) => case.inputs[1] = payload,
        None => change_content(rng, case),
    }
}

/// A byte of a text changed, mostly into a control character.
fn put_control(rng: &mut Rng, case: &mut Case) {
    let byte = text_byte(rng);
    match case.call {
        Call::Write if !case.inputs[2].is_empty() => {
            let at = rng.below(case.inputs[2].len());
            case.inputs[2][at] = byte;
        }
        Call::Read => {
            let left = on_peer(case);
            let reading = left.reading().filter(|_| left.is_accepted());
            let places =
                reading.map_or(vec![], |reading| text_places(&words_of(&case.inputs[0]), case.root, &reading.list()));
            let bits: Vec<_> =
                places.iter().flat_map(|&(place, bytes)| (0..bytes).map(move |at| place + 8 * at)).collect();
            match bits.is_empty() {
                true => change_content(rng, case),
                false => put_byte(&mut case.inputs[1], rng.pick(&bits), byte),
            }
        }
        _ => change_content(rng, case),
    }
}

/// Another day or time of day in place of a date's, or milliseconds that no day has; of a list, a date with one field changed.
fn put_date(rng: &mut Rng, case: &mut Case) {
    match case.call {
        Call::Write | Call::WriteLengths => {
            let mut words = words_of(&case.inputs[1]);
            let all = gen::dates(words.as_chunks().0);
            if all.is_empty() || !case.inputs[1].len().is_multiple_of(4) {
                return change_content(rng, case);
            }
            let at = 4 * rng.pick(&all) + 1;
            [words[at], words[at + 1]] = damage_date(rng, [words[at], words[at + 1]]);
            case.inputs[1] = big_endian(&words);
        }
        Call::Read => {
            let left = on_peer(case);
            let list = left.reading().filter(|_| left.is_accepted()).map_or(vec![], |reading| reading.list());
            let all = gen::dates(&list);
            if all.is_empty() {
                return change_content(rng, case);
            }
            let at = rng.pick(&all);
            let place = gen::place_of(&list, at);
            if list[at][3] == 64 && rng.one_in(2) {
                let ms = if rng.one_in(2) { gen::any_ms(rng) } else { gen::late_ms(rng) };
                put_word(&mut case.inputs[1], place + 32, ms);
            } else {
                put_word(&mut case.inputs[1], place, gen::any_day(rng));
            }
        }
        Call::Check | Call::SetHeld => change_content(rng, case),
    }
}

/// Lengths coded or not, element by element.
fn other_flags(rng: &mut Rng, case: &mut Case) {
    if matches!(case.call, Call::Write | Call::WriteLengths) {
        let (mode, among) = rng.pick(&[(0, 1), (1, 2), (1, 2), (2, 2)]);
        if case.call == Call::Write {
            case.mode = mode + (case.mode & bim::CASTING);
        }
        for event in
            case.inputs[1].chunks_exact_mut(bim::EVENT).filter(|event| event[..4] == bim::KIND_START.to_be_bytes())
        {
            event[11] = if mode == 2 { 1 } else { rng.below(among) as u8 };
        }
    }
}

fn change_content(rng: &mut Rng, case: &mut Case) {
    match case.call {
        Call::Check | Call::SetHeld => change_table(rng, case),
        Call::Read => damage_payload(rng, &mut case.inputs[1]),
        Call::Write | Call::WriteLengths => {
            let mut events: Vec<_> = words_of(&case.inputs[1])
                .chunks_exact(4)
                .map(|event| [event[0], event[1], event[2], event[3]])
                .collect();
            if !events.is_empty() {
                damage_list(rng, &mut events, &mut case.inputs[2]);
            }
            case.inputs[1] = big_endian(&events.concat());
        }
    }
}
