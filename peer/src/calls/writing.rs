//! Lists to write, and what was written read back.

use super::bench::Bench;
use super::case::{Call, Case, Left};
use super::reading::{area, root};
use crate::bim;
use crate::gen::{
    self, damage_date, damage_list, damage_table, edge_word, let_go, table_and_dates, table_and_sample, Sample,
};
use crate::model;
use crate::rng::Rng;
use crate::words::big_endian;

/// One seeded round: a case and its neighbours.
pub fn round(bench: &mut Bench<'_>, rng: &mut Rng) {
    match rng.below(44) {
        0..=9 => valid(bench, rng),
        10..=12 => each_word(bench, rng),
        13..=18 => damaged(bench, rng),
        19..=22 => blanks(bench, rng),
        23..=26 => texts(bench, rng),
        27..=29 => modes(bench, rng),
        30..=31 => odd_lengths(bench, rng),
        32 => areas(bench, rng),
        33 => roots(bench, rng),
        34 => malformed_tables(bench, rng),
        35 => noise(bench, rng),
        36..=38 => deep(bench, rng),
        40..=43 => dates(bench, rng),
        _ if rng.one_in(5) => large(bench, rng),
        _ => valid(bench, rng),
    }
}

/// Asks, and of some lists the short call too, which leaves the same where the mode is 2.
pub fn ask(bench: &mut Bench<'_>, kind: &'static str, case: &Case) -> Left {
    let left = ask_once(bench, kind, case);
    if case.call == Call::Write && bench.cases().is_multiple_of(4) {
        let short = ask_once(bench, "by the short call", &case.clone().without_mode());
        bench.hold(case, case.mode != bim::MODE_ALWAYS || short == left, || {
            format!("the short call leaves {short:02x?}")
        });
    }
    left
}

/// Asks, and reads back what was written.
fn ask_once(bench: &mut Bench<'_>, kind: &'static str, case: &Case) -> Left {
    let left = bench.ask(kind, case);
    if left.is_accepted() {
        read_back(bench, case, &left);
    }
    left
}

/// Demand 2: what was written reads back, given room, as that list with true bit counts.
fn read_back(bench: &mut Bench<'_>, case: &Case, left: &Left) {
    let bits = left.word(4);
    let Some(payload) = left.outputs[0].get(..bits.div_ceil(8)) else {
        return bench.hold(case, false, || "the area counts more bits than the payload has".to_string());
    };
    let [table, list, texts] = &case.inputs[..] else {
        return;
    };
    let mut back = Case::read(&[], case.party, case.root, payload.to_vec(), list.len(), texts.len());
    back.inputs[0].clone_from(table);
    let read = bench.ask_aside("read back", &back);
    let alike = |(got, given): (&[u8], &[u8])| got[..12] == given[..12];
    let same = read.is_accepted()
        && read.outputs[0].chunks_exact(bim::EVENT).zip(list.chunks_exact(bim::EVENT)).all(alike)
        && read.outputs[1] == *texts
        && read.outputs[2] == left.outputs[1];
    bench.hold(case, same, || format!("demand 2: read back as {read:02x?}"));
    let bits_of = |event: &[u8]| u32::from_be_bytes([event[12], event[13], event[14], event[15]]) as usize;
    let sum: usize = read.outputs[0].chunks_exact(bim::EVENT).map(bits_of).sum();
    bench.hold(case, sum + 8 == bits, || format!("demand 2: read back, the events have {sum} bits of {bits}"));
}

fn put_list(case: &mut Case, events: &[[u32; 4]]) {
    case.inputs[1] = big_endian(&events.concat());
}

fn valid(bench: &mut Bench<'_>, rng: &mut Rng) {
    let (table, mut sample) = table_and_sample(rng, 0);
    if rng.one_in(2) {
        sample.events.iter_mut().for_each(|event| event[3] = rng.word());
    }
    let mut case = Case::write_sample(&table, &sample);
    ask(bench, "valid lists", &case);
    rooms_around(bench, rng, &mut case);
}

/// Rooms of every size around the payload's.
fn rooms_around(bench: &mut Bench<'_>, rng: &mut Rng, case: &mut Case) {
    let need = case.rooms[0];
    for room in [need.saturating_sub(2), need.saturating_sub(1), need + 1, need + rng.within(2, 20)] {
        case.rooms[0] = room;
        bench.ask("rooms around the payload's", case);
    }
    case.rooms[0] = rng.below(need + 1);
    bench.ask("short rooms", case);
    if rng.one_in(20) {
        for room in 0..need.min(100) {
            case.rooms[0] = room;
            bench.ask("every room", case);
        }
    }
    case.rooms[0] = need;
}

/// Each word of a list changed.
fn each_word(bench: &mut Bench<'_>, rng: &mut Rng) {
    let (table, sample) = table_and_sample(rng, 0);
    let mut case = Case::write_sample(&table, &sample);
    case.rooms[0] += 20;
    let words = sample.events.concat();
    for (at, &old) in words.iter().enumerate().take(160) {
        let word = match rng.below(6) {
            0 | 1 => old.wrapping_add(1),
            2 => old.wrapping_sub(1),
            3 => old ^ 1,
            4 => rng.below(9) as u32,
            _ => edge_word(rng),
        };
        case.inputs[1][4 * at..4 * at + 4].copy_from_slice(&word.to_be_bytes());
        ask(bench, "each word changed", &case);
        case.inputs[1][4 * at..4 * at + 4].copy_from_slice(&old.to_be_bytes());
    }
}

/// Events lost, added, doubled or swapped, up to three such at once.
fn damaged(bench: &mut Bench<'_>, rng: &mut Rng) {
    let (table, sample) = table_and_sample(rng, 0);
    let mut case = Case::write_sample(&table, &sample);
    case.rooms[0] += rng.below(30);
    let mut list = sample.clone();
    for _ in 0..4 {
        damage_list(rng, &mut list.events, &mut list.texts);
        put_list(&mut case, &list.events);
        case.inputs[2].clone_from(&list.texts);
        ask(bench, "damaged lists", &case);
        if list.events.is_empty() || rng.one_in(2) {
            list = sample.clone();
        }
    }
}

/// The first event past the element whose Start stands at `start`.
fn past(events: &[[u32; 4]], start: usize) -> usize {
    let mut open = 0;
    for (at, event) in events.iter().enumerate().skip(start) {
        match event[0] {
            bim::KIND_START => open += 1,
            bim::KIND_END => open -= 1,
            _ => {}
        }
        if open == 0 {
            return at + 1;
        }
    }
    events.len()
}

/// Blanks in place of events and of whole elements, and types that are not held.
fn blanks(bench: &mut Bench<'_>, rng: &mut Rng) {
    let (table, sample) = table_and_sample(rng, 0);
    let mut case = Case::write_sample(&table, &sample);
    for _ in 0..4 {
        let mut events = sample.events.clone();
        let at = rng.below(events.len());
        let blank = [bim::KIND_BLANK, events[at][1], rng.below(4) as u32, rng.below(40) as u32];
        match rng.below(4) {
            0 => events[at] = blank,
            1 => events.insert(at, blank),
            2 => events.push(blank),
            _ => {
                events.splice(at..past(&sample.events, at), [blank]);
            }
        }
        put_list(&mut case, &events);
        ask(bench, "blanks", &case);
    }
    put_list(&mut case, &sample.events);
    for times in [2, 5] {
        case.inputs[0] = big_endian(&let_go(rng, case.party, &table, times));
        ask(bench, "types not held", &case);
    }
}

fn has_texts(rng: &mut Rng) -> (Vec<u32>, Sample) {
    loop {
        let (table, sample) = table_and_sample(rng, 0);
        if !sample.texts.is_empty() {
            return (table, sample);
        }
    }
}

/// Text bytes short, left over, not UTF-8, or control characters.
fn texts(bench: &mut Bench<'_>, rng: &mut Rng) {
    let (table, sample) = has_texts(rng);
    let mut case = Case::write_sample(&table, &sample);
    let length = sample.texts.len();
    for length in [0, length - 1, rng.below(length), length + 1, length + rng.within(2, 40)] {
        case.inputs[2].resize(length, b'a');
        ask(bench, "texts short and left over", &case);
        case.inputs[2].clone_from(&sample.texts);
    }
    for _ in 0..3 {
        let at = rng.below(length);
        case.inputs[2][at] = rng.pick(&[0x80, 0xbf, 0xc0, 0xc1, 0xc2, 0xe0, 0xed, 0xf0, 0xf4, 0xf5, 0xff, 0x41]);
        ask(bench, "texts changed", &case);
        if rng.one_in(2) {
            case.inputs[2].clone_from(&sample.texts);
        }
    }
    for _ in 0..4 {
        case.inputs[2].clone_from(&sample.texts);
        let at = rng.below(length);
        case.inputs[2][at] = gen::text_byte(rng);
        ask(bench, "control characters", &case);
        if length > 1 {
            case.inputs[2].pop();
            ask(bench, "control characters, texts short", &case);
        }
    }
}

/// A field of a date changed, or the date another; a second word where the value is none.
fn dates(bench: &mut Bench<'_>, rng: &mut Rng) {
    let (table, sample) = table_and_dates(rng);
    let mut case = Case::write_sample(&table, &sample);
    ask(bench, "dates", &case);
    let all = gen::dates(&sample.events);
    for _ in 0..6 {
        let mut events = sample.events.clone();
        let event = &mut events[rng.pick(&all)];
        [event[1], event[2]] = match rng.below(4) {
            0 => model::date_words(gen::any_day(rng).into(), (event[2] % (1 << bim::MS_BITS)).into()),
            _ => damage_date(rng, [event[1], event[2]]),
        };
        put_list(&mut case, &events);
        ask(bench, "dates, changed", &case);
        let rooms = vec![rng.below(2) * rng.below(case.rooms[0] + 1), bim::AREA];
        ask(bench, "dates, changed, and no room", &Case { rooms, ..case.clone() });
    }
    let others: Vec<_> =
        (0..sample.events.len()).filter(|&at| sample.events[at][0] == bim::KIND_VALUE && !all.contains(&at)).collect();
    if !others.is_empty() {
        let mut events = sample.events.clone();
        events[rng.pick(&others)][2] = edge_word(rng);
        put_list(&mut case, &events);
        ask(bench, "second words of no dates", &case);
    }
}

fn set_flags(events: &mut [[u32; 4]], flag: u32) {
    events.iter_mut().filter(|event| event[0] == bim::KIND_START).for_each(|event| event[2] = flag);
}

fn modes(bench: &mut Bench<'_>, rng: &mut Rng) {
    let (table, mut sample) = table_and_sample(rng, 0);
    for mode in [0, 1, 2, 3, 4, 5, 6, 7, edge_word(rng)] {
        let mut case = Case::write_sample(&table, &sample);
        case.mode = mode;
        case.rooms[0] += 200;
        ask(bench, "every mode", &case);
        // The same list as this mode has it.
        let flag = if rng.one_in(3) { rng.below(2) as u32 } else { (mode % bim::CASTING).min(2) / 2 };
        set_flags(&mut sample.events, flag);
        put_list(&mut case, &sample.events);
        ask(bench, "every mode", &case);
    }
}

/// Lists that are not whole events, tables that are not whole words.
fn odd_lengths(bench: &mut Bench<'_>, rng: &mut Rng) {
    let (table, sample) = table_and_sample(rng, 0);
    let case = Case::write_sample(&table, &sample);
    let length = case.inputs[1].len();
    for length in [length + rng.within(1, 31), length - rng.within(1, 15), rng.below(length), 0] {
        let mut odd = case.clone();
        odd.inputs[1].resize(length, 0);
        if rng.one_in(8) {
            odd.mode = 3;
        }
        if rng.one_in(8) {
            odd.root.1 = table[1];
        }
        ask(bench, "lists of odd length", &odd);
    }
    let mut odd = case.clone();
    let length = odd.inputs[0].len() + rng.below(8) - 3;
    odd.inputs[0].resize(length, rng.word() as u8);
    ask(bench, "tables of odd length", &odd);
}

fn areas(bench: &mut Bench<'_>, rng: &mut Rng) {
    let (table, mut sample) = table_and_sample(rng, 0);
    if rng.one_in(3) {
        damage_list(rng, &mut sample.events, &mut sample.texts);
    }
    let mut case = Case::write_sample(&table, &sample);
    for _ in 0..4 {
        case.rooms[1] = area(rng);
        ask(bench, "areas of any size", &case);
    }
}

fn roots(bench: &mut Bench<'_>, rng: &mut Rng) {
    let (table, sample) = table_and_sample(rng, 0);
    let mut case = Case::write_sample(&table, &sample);
    for _ in 0..4 {
        case.root = root(rng, sample.root, table[1]);
        ask(bench, "roots of any size", &case);
    }
    // Parties of any size: before 22 and 18, and after 2.
    for _ in 0..4 {
        case.party = gen::edge_party(rng);
        case.root = sample.root;
        ask(bench, "parties of any size", &case);
        let mut other = Case { mode: rng.pick(&[3, 9]), ..case.clone() };
        ask(bench, "parties of any size, no such mode", &other);
        other.inputs[1].truncate(rng.below(16));
        ask(bench, "parties of any size, no list", &other);
    }
}

fn malformed_tables(bench: &mut Bench<'_>, rng: &mut Rng) {
    let (whole, sample) = table_and_sample(rng, 0);
    let mut case = Case::write_sample(&whole, &sample);
    for _ in 0..4 {
        let mut table = whole.clone();
        damage_table(rng, &mut table);
        case.inputs[0] = big_endian(&table);
        ask(bench, "malformed tables", &case);
    }
}

fn noise(bench: &mut Bench<'_>, rng: &mut Rng) {
    let party = gen::any_party(rng);
    let table = gen::table(rng, party);
    for _ in 0..4 {
        let root = (rng.below(9) as u32, rng.below(table[1] as usize) as u32);
        let mut list: Vec<_> = (0..4 * rng.below(7)).map(|_| rng.below(9) as u32).collect();
        if rng.one_in(2) && list.len() >= 4 {
            list[..3].copy_from_slice(&[1, root.0, rng.below(2) as u32]);
        }
        let mut list = big_endian(&list);
        if rng.one_in(4) {
            list = (0..rng.below(100)).map(|_| rng.word() as u8).collect();
        }
        let texts = (0..rng.below(9)).map(|_| rng.word() as u8).collect();
        ask(bench, "noise", &Case::write(&table, party, root, rng.below(8) as u32, list, texts, rng.below(60)));
    }
}

fn deep(bench: &mut Bench<'_>, rng: &mut Rng) {
    let party = gen::any_party(rng);
    let table = gen::deep_table(rng, party);
    let Some(mut sample) = gen::deep_sample(rng, &table, party) else {
        return;
    };
    let mut case = Case::write_sample(&table, &sample);
    ask(bench, "deep lists", &case);
    let mut short = case.clone().without_mode();
    let mut sized = sample.events.clone();
    set_flags(&mut sized, 1);
    put_list(&mut short, &sized);
    ask(bench, "deep lists, by the short call", &short);
    for _ in 0..2 {
        damage_list(rng, &mut sample.events, &mut sample.texts);
        put_list(&mut case, &sample.events);
        ask(bench, "deep lists, damaged", &case);
        if sample.events.is_empty() {
            return;
        }
    }
}

/// Lists about as long as may be, and longer.
fn large(bench: &mut Bench<'_>, rng: &mut Rng) {
    let (table, sample) = table_and_sample(rng, 0);
    let mut case = Case::write_sample(&table, &sample);
    let events = rng.pick(&[bim::MOST_EVENTS - 1, bim::MOST_EVENTS, bim::MOST_EVENTS + 1, 3000]);
    case.inputs[1] =
        case.inputs[1].iter().copied().cycle().take(bim::EVENT * events + rng.pick(&[0, 0, 0, 1, 15])).collect();
    ask(bench, "long lists", &case);
}

/// The named cases, and their neighbours.
pub fn named(bench: &mut Bench<'_>) {
    let mut rng = Rng::new(0);
    let writes = |case: &Case| matches!(case.call, Call::Write | Call::WriteLengths);
    for base in super::named().into_iter().filter(writes) {
        let room = base.rooms[0];
        ask(bench, "named lists", &base);
        ask(bench, "named lists, by the short call", &base.clone().without_mode());
        for mode in 0..8 {
            ask(bench, "named lists, other modes", &Case { call: Call::Write, mode, ..base.clone() });
        }
        for rooms in [
            [room, 0],
            [room, bim::AREA - 1],
            [room, bim::AREA + 1],
            [bim::MOST_PAYLOAD - 1, bim::AREA],
            [bim::MOST_PAYLOAD, bim::AREA],
            [9000, bim::AREA],
        ] {
            ask(bench, "named lists, other rooms", &Case { rooms: rooms.to_vec(), ..base.clone() });
        }
        let mut longer = base.clone();
        longer.inputs[1].push(0);
        ask(bench, "named lists, a byte more", &longer);
        rooms_around(bench, &mut rng, &mut base.clone());
    }
}
