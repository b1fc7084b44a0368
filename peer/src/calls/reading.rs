//! Tables to check and payloads to read.

use super::bench::Bench;
use super::case::{Call, Case, Left};
use crate::bim;
use crate::bits::put_word;
use crate::cases;
use crate::gen::{
    self, damage_payload, damage_table, edge_word, late_ms, let_go, table_and_control, table_and_dates,
    table_and_padded, table_and_sample,
};
use crate::padding::lengths_are_shortest;
use crate::rng::Rng;
use crate::words::big_endian;

const MOST: usize = bim::MOST_EVENTS;

/// One seeded round: a case and its neighbours.
pub fn round(bench: &mut Bench<'_>, rng: &mut Rng) {
    match rng.below(56) {
        0..=9 => valid(bench, rng),
        10..=16 => odd_codes(bench, rng),
        17..=25 => damaged(bench, rng),
        26 if rng.one_in(3) => each_bit(bench, rng),
        26..=28 => malformed_tables(bench, rng),
        29..=30 => odd_lengths(bench, rng),
        31 => areas(bench, rng),
        32 => roots(bench, rng),
        33..=35 => noise(bench, rng),
        36..=38 => deep(bench, rng),
        39..=44 => padded(bench, rng),
        45..=50 => controls(bench, rng),
        52..=55 => dates(bench, rng),
        _ if rng.one_in(5) => large(bench, rng),
        _ => valid(bench, rng),
    }
}

/// Asks; what is accepted is written back where it has no blanks, and asked once more followed by itself.
pub fn ask(bench: &mut Bench<'_>, kind: &'static str, case: &Case) -> Left {
    let left = bench.ask(kind, case);
    if left.is_accepted() {
        written_back(bench, case, &left);
        ends_by_itself(bench, case, &left);
    }
    left
}

/// No payload begins another: followed by itself it is refused where it ends, or with both is too long.
fn ends_by_itself(bench: &mut Bench<'_>, case: &Case, left: &Left) {
    let mut butted = case.clone();
    butted.inputs[1] = case.inputs[1].repeat(2);
    let long = butted.inputs[1].len() > bim::MOST_PAYLOAD;
    let expected = if long { (bim::PAYLOAD_SIZE, 0) } else { (bim::LEFT_OVER, left.word(4)) };
    let got = bench.ask_aside("followed by itself", &butted);
    let ends = (got.number, got.word(0)) == expected && left.word(4).div_ceil(8) == case.inputs[1].len();
    bench.hold(case, ends, || format!("followed by itself: {got:02x?}"));
}

/// Demand 2: bytes read without blanks are written back, identically where every TheLength is shortest. Else fewer bits are written, and
/// they read, in the same rooms, to the same mode, texts and first three words of every event.
fn written_back(bench: &mut Bench<'_>, case: &Case, left: &Left) {
    let (Some(events), Some(texts), Some(outcome)) = (left.events(), left.texts(), left.reading()) else {
        return bench.hold(case, false, || "the area counts more than the buffers have".to_string());
    };
    let shortest = lengths_are_shortest(outcome.answer.mode, &outcome.list());
    let blanks = events.chunks_exact(bim::EVENT).any(|event| event[..4] == bim::KIND_BLANK.to_be_bytes());
    bench.count_reading(!shortest, blanks);
    if blanks {
        return;
    }
    let mut back = Case::write(&[], case.party, case.root, left.word(1) as u32, events.to_vec(), texts.to_vec(), 0);
    back.inputs[0].clone_from(&case.inputs[0]);
    back.rooms[0] = case.inputs[1].len();
    let written = bench.ask_aside("written back", &back);
    if shortest {
        let same =
            written.is_accepted() && written.outputs[0] == case.inputs[1] && written.outputs[1] == left.outputs[2];
        return bench.hold(case, same, || format!("demand 2: written back as {written:02x?}"));
    }
    let bits = written.word(4);
    let fewer = written.is_accepted() && bits < left.word(4);
    bench.hold(case, fewer, || format!("demand 2: padded, and written back as {written:02x?}"));
    if let Some(payload) = written.outputs[0].get(..bits.div_ceil(8)).filter(|_| fewer) {
        let mut shorter = case.clone();
        shorter.inputs[1] = payload.to_vec();
        let again = bench.ask_aside("padded, written back and read", &shorter);
        let alike = |(one, other): (&[u8], &[u8])| one[..12] == other[..12];
        let same = again.is_accepted()
            && again.outputs[0].chunks_exact(bim::EVENT).zip(left.outputs[0].chunks_exact(bim::EVENT)).all(alike)
            && again.outputs[1] == left.outputs[1]
            && again.outputs[2] == written.outputs[1]
            && again.word(1) == left.word(1);
        bench.hold(case, same, || format!("demand 2: padded, written back and read as {again:02x?}"));
    }
}

fn check(bench: &mut Bench<'_>, kind: &'static str, table: &[u8]) {
    bench.ask(kind, &Case::check(table.to_vec()));
}

/// A table and a sample, some of its types let go; without a quirk, some samples have padded lengths.
fn held_in_part(rng: &mut Rng, quirk: usize) -> Case {
    let (table, sample) =
        if quirk == 0 && rng.one_in(4) { table_and_padded(rng) } else { table_and_sample(rng, quirk) };
    let table = if rng.one_in(2) { table } else { let_go(rng, sample.party, &table, 5) };
    Case::read_sample(&table, &sample)
}

fn valid(bench: &mut Bench<'_>, rng: &mut Rng) {
    let (table, sample) = table_and_sample(rng, 0);
    let mut case = Case::read_sample(&table, &sample);
    check(bench, "right tables", &case.inputs[0]);
    let mut left = ask(bench, "valid payloads", &case);
    for times in [2, 5] {
        if rng.one_in(2) {
            case.inputs[0] = big_endian(&let_go(rng, case.party, &table, times));
            left = ask(bench, "valid payloads, types not held", &case);
        }
    }
    rooms_around(bench, rng, &mut case, &left);
}

/// Padded lengths, with all types held and not, damaged, and their walls moved by a bit.
fn padded(bench: &mut Bench<'_>, rng: &mut Rng) {
    let (table, sample) = table_and_padded(rng);
    let mut case = Case::read_sample(&table, &sample);
    let left = ask(bench, "padded lengths", &case);
    rooms_around(bench, rng, &mut case.clone(), &left);
    case.inputs[0] = big_endian(&let_go(rng, case.party, &table, 4));
    ask(bench, "padded lengths, types not held", &case);
    case.rooms[0] += 64;
    case.rooms[1] += 8;
    for _ in 0..3 {
        let mut damaged = case.clone();
        if rng.one_in(2) {
            damage_payload(rng, &mut damaged.inputs[1]);
        } else {
            // One bit of a head: its groups, or what they say.
            let heads: Vec<_> = gen::heads(&sample.events);
            let bit = rng.pick(&heads);
            damaged.inputs[1][bit / 8] ^= 0x80 >> (bit % 8);
        }
        ask(bench, "padded lengths, damaged", &damaged);
    }
}

/// A control character in a text that is read and in one that may be stepped over, with room for it and without.
fn controls(bench: &mut Bench<'_>, rng: &mut Rng) {
    let (table, sample) = table_and_control(rng);
    let mut case = Case::read_sample(&table, &sample);
    ask(bench, "control characters", &case);
    let all = case.rooms.clone();
    case.rooms = vec![rng.below(all[0] + 1), rng.below(all[1] + 1), bim::AREA];
    ask(bench, "control characters, short rooms", &case);
    case.rooms = all;
    for times in [2, 5] {
        case.inputs[0] = big_endian(&let_go(rng, case.party, &table, times));
        ask(bench, "control characters, types not held", &case);
    }
}

/// Dates: another day or time of day, milliseconds that no day has, each of their ends; rooms about the need, and types not held.
fn dates(bench: &mut Bench<'_>, rng: &mut Rng) {
    let (table, sample) = table_and_dates(rng);
    let mut case = Case::read_sample(&table, &sample);
    let left = ask(bench, "dates", &case);
    rooms_around(bench, rng, &mut case.clone(), &left);
    let at = rng.pick(&gen::dates(&sample.events));
    let first = gen::place_of(&sample.events, at);
    let bits = sample.events[at][3] as usize;
    for _ in 0..4 {
        let mut other = case.clone();
        put_word(&mut other.inputs[1], first, gen::any_day(rng));
        if bits == 64 {
            let ms = if rng.one_in(2) { gen::any_ms(rng) } else { late_ms(rng) };
            put_word(&mut other.inputs[1], first + 32, ms);
        }
        ask(bench, "dates, others in their place", &other);
        let rooms = vec![bim::EVENT * at + rng.below(bim::EVENT), case.rooms[1], bim::AREA];
        ask(bench, "dates, others in their place, and no room", &Case { rooms, ..other.clone() });
        // The payload ends in the date, or right before or behind it.
        other.inputs[1].truncate((first + rng.below(bits + 9)).div_ceil(8));
        ask(bench, "dates, cut", &other);
        damage_payload(rng, &mut other.inputs[1]);
        ask(bench, "dates, damaged", &other);
    }
    for times in [2, 5] {
        case.inputs[0] = big_endian(&let_go(rng, case.party, &table, times));
        ask(bench, "dates, types not held", &case);
    }
}

/// Rooms of every size around what the reading took.
fn rooms_around(bench: &mut Bench<'_>, rng: &mut Rng, case: &mut Case, left: &Left) {
    let (events, texts) =
        if left.is_accepted() { (bim::EVENT * left.word(2), left.word(3)) } else { (case.rooms[0], case.rooms[1]) };
    let every = if rng.one_in(20) { 20 } else { 3 };
    for _ in 0..every {
        case.rooms = vec![(events + rng.below(37)).saturating_sub(18), texts + rng.below(3), bim::AREA];
        ask(bench, "rooms around the need", case);
    }
    for short in 0..=2 {
        case.rooms = vec![events + rng.below(20), (texts + 1).saturating_sub(short), bim::AREA];
        ask(bench, "rooms around the need", case);
    }
    case.rooms = vec![rng.below(events + 17), rng.below(texts + 2), bim::AREA];
    ask(bench, "short rooms", case);
    if rng.one_in(60) {
        for room in 0..=events.min(320) + 17 {
            case.rooms = vec![room, texts, bim::AREA];
            bench.ask("every room for events", case);
        }
        for room in 0..=texts.min(60) {
            case.rooms = vec![events, room, bim::AREA];
            bench.ask("every room for texts", case);
        }
    }
}

fn odd_codes(bench: &mut Bench<'_>, rng: &mut Rng) {
    let quirk = rng.pick(&[3, 8, 20, 60]);
    let mut case = held_in_part(rng, quirk);
    case.rooms[0] += 100;
    case.rooms[1] += 100;
    ask(bench, "odd codes", &case);
    for _ in 0..2 {
        damage_payload(rng, &mut case.inputs[1]);
        ask(bench, "odd codes, damaged", &case);
    }
}

fn damaged(bench: &mut Bench<'_>, rng: &mut Rng) {
    let mut case = held_in_part(rng, 0);
    if rng.one_in(2) {
        case.rooms[0] += 200;
        case.rooms[1] += 50;
    }
    let whole = case.inputs[1].clone();
    for _ in 0..4 {
        damage_payload(rng, &mut case.inputs[1]);
        ask(bench, "damaged payloads", &case);
        if rng.one_in(2) {
            case.inputs[1].clone_from(&whole);
        }
    }
}

/// Each bit of a payload flipped, each of its beginnings, and zeros behind it.
fn each_bit(bench: &mut Bench<'_>, rng: &mut Rng) {
    let mut case = held_in_part(rng, 0);
    let whole = case.inputs[1].clone();
    case.rooms[0] += 64;
    case.rooms[1] += 8;
    for bit in 0..8 * whole.len().min(24) {
        case.inputs[1][bit / 8] ^= 0x80 >> (bit % 8);
        ask(bench, "each bit flipped", &case);
        case.inputs[1][bit / 8] = whole[bit / 8];
    }
    for length in 0..whole.len().min(40) + 2 {
        case.inputs[1].clone_from(&whole);
        case.inputs[1].resize(length, 0);
        ask(bench, "each length of payload", &case);
    }
}

fn malformed_tables(bench: &mut Bench<'_>, rng: &mut Rng) {
    let (whole, sample) = table_and_sample(rng, 0);
    let mut case = Case::read_sample(&whole, &sample);
    let mut table = whole.clone();
    for _ in 0..3 {
        damage_table(rng, &mut table);
        case.inputs[0] = big_endian(&table);
        check(bench, "malformed tables", &case.inputs[0]);
        ask(bench, "malformed tables", &case);
        if table.is_empty() || rng.one_in(2) {
            table.clone_from(&whole);
        }
    }
    if rng.one_in(25) {
        for at in 0..whole.len() {
            table.clone_from(&whole);
            table[at] = match rng.below(3) {
                0 => table[at].wrapping_add(1),
                1 => table[at].wrapping_sub(1),
                _ => edge_word(rng),
            };
            case.inputs[0] = big_endian(&table);
            check(bench, "each word of a table changed", &case.inputs[0]);
            ask(bench, "each word of a table changed", &case);
        }
    }
}

/// Tables that are not whole words, events that are not whole events.
fn odd_lengths(bench: &mut Bench<'_>, rng: &mut Rng) {
    let mut case = held_in_part(rng, 0);
    let whole = case.inputs[0].clone();
    let odd = 1 + rng.below(15);
    case.rooms[0] += odd;
    ask(bench, "odd room for events", &case);
    case.rooms[0] = rng.below(whole.len() + 40);
    ask(bench, "odd room for events", &case);
    if rng.one_in(2) {
        let at = rng.below(16);
        case.inputs[0][at] = rng.word() as u8;
    }
    let length = case.inputs[0].len();
    for length in [length + rng.within(1, 3), length - rng.within(1, 3), rng.below(length), rng.below(20)] {
        let mut odd = case.clone();
        odd.inputs[0].resize(length, rng.word() as u8);
        check(bench, "tables of odd length", &odd.inputs[0]);
        ask(bench, "tables of odd length", &odd);
    }
    if rng.one_in(80) {
        for length in 0..whole.len().min(300) {
            check(bench, "each length of table", &whole[..length]);
        }
    }
}

/// Areas of any size but the right one, over right and wrong input.
pub fn area(rng: &mut Rng) -> usize {
    match rng.below(3) {
        0 => rng.pick(&[0, 1, 4, 24, 128, 148, 151, 153, 156, 304]),
        1 => rng.within(145, 160),
        _ => rng.below(400),
    }
}

fn areas(bench: &mut Bench<'_>, rng: &mut Rng) {
    let mut case = held_in_part(rng, 0);
    if rng.one_in(3) {
        damage_payload(rng, &mut case.inputs[1]);
    }
    for _ in 0..3 {
        let area = area(rng);
        case.rooms = vec![rng.below(100), rng.below(20), area];
        ask(bench, "areas of any size", &case);
        bench.ask("areas of any size", &Case { rooms: vec![area], ..Case::check(case.inputs[0].clone()) });
    }
    if rng.one_in(4) {
        let at = rng.below(case.inputs[0].len());
        case.inputs[0].truncate(at);
        ask(bench, "areas of any size", &case);
    }
}

/// A root of any name and type, for a table of so many types.
pub fn root(rng: &mut Rng, root: (u32, u32), types: u32) -> (u32, u32) {
    match rng.below(6) {
        0 => (root.0, types),
        1 => (root.0, types - 1),
        2 => (rng.pick(&[0, bim::MOST_NAME, bim::MOST_NAME + 1, 65_537, 1 << 31, u32::MAX]), root.1),
        3 => (edge_word(rng), root.1),
        4 => (root.0, edge_word(rng)),
        _ => (edge_word(rng), edge_word(rng)),
    }
}

fn roots(bench: &mut Bench<'_>, rng: &mut Rng) {
    let mut case = held_in_part(rng, 0);
    let (old, types) = (case.root, u32::from(case.inputs[0][7]));
    for _ in 0..4 {
        case.root = root(rng, old, types);
        ask(bench, "roots of any size", &case);
    }
    parties(bench, rng, case);
}

/// Parties of any size, with a right root and a wrong one, a whole payload and none.
fn parties(bench: &mut Bench<'_>, rng: &mut Rng, case: Case) {
    for _ in 0..4 {
        let mut other = Case { party: gen::edge_party(rng), ..case.clone() };
        ask(bench, "parties of any size", &other);
        other.inputs[1].truncate(rng.below(2));
        ask(bench, "parties of any size, no payload", &other);
    }
}

fn noise(bench: &mut Bench<'_>, rng: &mut Rng) {
    let party = gen::any_party(rng);
    let table = gen::table(rng, party);
    let table = let_go(rng, party, &table, 4);
    let root = (rng.below(50) as u32, rng.below(table[1] as usize) as u32);
    let mut case = Case::read(&table, party, root, gen::noise(rng), bim::EVENT * rng.below(100), rng.below(60));
    for _ in 0..3 {
        ask(bench, "noise as payload", &case);
        case.inputs[1] = gen::noise(rng);
    }
    case.inputs[1] = (0..rng.below(30)).map(|_| rng.word() as u8).collect();
    ask(bench, "noise as payload", &case);
    case.inputs[0] = (0..rng.below(200)).map(|_| rng.pick(&[0, 0, 0, 1, 2, 3, 255])).collect();
    if rng.one_in(2) && case.inputs[0].len() >= 16 {
        let form = rng.pick(&[bim::FORM_PLAIN, bim::FORM_CASTS]);
        case.inputs[0][..16].copy_from_slice(&big_endian(&[form, 1, rng.below(4) as u32, rng.below(9) as u32]));
    }
    check(bench, "noise as table", &case.inputs[0]);
    ask(bench, "noise as table", &case);
}

fn deep(bench: &mut Bench<'_>, rng: &mut Rng) {
    let party = gen::any_party(rng);
    let table = gen::deep_table(rng, party);
    let Some(mut sample) = gen::deep_sample(rng, &table, party) else {
        return;
    };
    if rng.one_in(3) {
        sample.pad(rng);
    }
    let mut case = Case::read_sample(&table, &sample);
    ask(bench, "deep payloads", &case);
    case.inputs[0] = big_endian(&let_go(rng, party, &table, 12));
    ask(bench, "deep payloads", &case);
    damage_payload(rng, &mut case.inputs[1]);
    ask(bench, "deep payloads, damaged", &case);
    case.rooms[0] = rng.below(case.rooms[0] + 1);
    ask(bench, "deep payloads, damaged", &case);
}

/// Payloads and tables about as large as may be, and more.
fn large(bench: &mut Bench<'_>, rng: &mut Rng) {
    let mut case = held_in_part(rng, 0);
    let length = bim::MOST_PAYLOAD.saturating_add_signed(rng.pick(&[-2, -1, 0, 1, 2, 808, 61_808]));
    case.inputs[1].resize(length, 0);
    case.rooms[0] = rng.pick(&[MOST - 1, MOST, MOST + 1, 4000]) * bim::EVENT + rng.below(bim::EVENT);
    ask(bench, "large payloads", &case);
    case.inputs[1].iter_mut().skip(1).for_each(|byte| *byte = (rng.word() & rng.word() & rng.word()) as u8);
    ask(bench, "large payloads", &case);
    let mut table = rng.pick(&cases::largest_tables()).to_vec();
    if rng.one_in(2) {
        damage_table(rng, &mut table);
    }
    let mut table = big_endian(&table);
    let length = table.len() + rng.pick(&[0, 0, 0, 1, 4, 40_000]);
    table.resize(length, rng.word() as u8);
    check(bench, "large tables", &table);
    case.inputs[0] = table;
    case.root = (1, rng.below(260) as u32);
    case.inputs[1] = gen::noise(rng);
    ask(bench, "large tables", &case);
}

/// The named cases, and their neighbours: other areas, rooms about the need and about the limit, other lengths.
pub fn named(bench: &mut Bench<'_>) {
    let mut rng = Rng::new(0);
    for base in super::named() {
        match base.call {
            Call::Check => {
                bench.ask("named tables", &base);
                for area in [0, bim::AREA - 1, bim::AREA + 1] {
                    bench.ask("named tables, other areas", &Case { rooms: vec![area], ..base.clone() });
                }
            }
            Call::Read => {
                check(bench, "tables of named cases", &base.inputs[0]);
                let left = ask(bench, "named payloads", &base);
                let full = MOST * bim::EVENT;
                for room in [0, 1, bim::EVENT, full - bim::EVENT, full - 1, full, full + bim::EVENT, 80_003] {
                    let rooms = vec![room, base.rooms[1], bim::AREA];
                    ask(bench, "named payloads, rooms at the limit", &Case { rooms, ..base.clone() });
                }
                for area in [0, bim::AREA - 1, bim::AREA + 1] {
                    let rooms = vec![base.rooms[0], base.rooms[1], area];
                    ask(bench, "named payloads, other areas", &Case { rooms, ..base.clone() });
                }
                let mut longer = base.clone();
                longer.inputs[0].push(0);
                ask(bench, "named payloads, tables of odd length", &longer);
                rooms_around(bench, &mut rng, &mut base.clone(), &left);
            }
            Call::Write | Call::WriteLengths | Call::SetHeld => {}
        }
    }
}
