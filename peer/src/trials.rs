//! One trial is one seeded case of some kind, held against the demands.

use crate::answer::{refusal, Answer, Path};
use crate::bim;
use crate::call::{Read, Set, Write};
use crate::demands::{self, check_table, two_tables, Tally};
use crate::gen::{self, table_and_control, table_and_dates, table_and_padded, table_and_sample};
use crate::rng::Rng;
use crate::rows::held_word;
use crate::words::{big_endian, words_of};
use crate::{bits, calendar, codes, host, model, reader, swift, utf8, value, writer};

/// The kinds of trial, by name.
pub const KINDS: [&str; 14] = [
    "valid lists", "odd codes", "damaged payloads", "two tables", "damaged lists", "damaged tables", "noise",
    "codes alone", "C boundary", "deep lists", "padded lengths", "control characters", "settings", "dates",
];

/// How often each kind comes up among 29.
#[rustfmt::skip]
const SHARES: [usize; 29] = [0, 0, 0, 1, 1, 1, 2, 2, 2, 3, 3, 3, 4, 4, 4, 5, 6, 7, 7, 8, 9, 10, 10, 11, 11, 12, 12, 13, 13];

/// Runs the trial of this seed; gives its kind, and `Err` with what was violated.
pub fn trial(tally: &mut Tally, seed: u64) -> (usize, Result<(), String>) {
    let mut rng = Rng::new(seed);
    let kind = rng.pick(&SHARES);
    let result = match kind {
        0 => valid_list(tally, &mut rng),
        1 => odd_codes(tally, &mut rng),
        2 => damaged_payload(tally, &mut rng),
        3 => two_table_trial(tally, &mut rng),
        4 => damaged_list(tally, &mut rng),
        5 => damaged_table(tally, &mut rng),
        6 => noise(tally, &mut rng),
        7 => codes_alone(&mut rng),
        8 => boundary(&mut rng),
        9 => deep_list(tally, &mut rng),
        10 => padded_lengths(tally, &mut rng),
        11 => control_characters(tally, &mut rng),
        12 => settings(tally, &mut rng),
        _ => dates(tally, &mut rng),
    };
    (kind, result)
}

/// Event words and text bytes to lend for lists of about this size: mostly enough, else just short.
fn rooms(rng: &mut Rng, events: usize, texts: usize) -> (usize, usize) {
    let event_words = match rng.below(6) {
        0 => 4 * events,
        1 => (4 * events).saturating_sub(rng.within(1, 9)),
        2 => rng.below(4 * events + 1),
        _ => 4 * events + rng.below(9),
    };
    let text_room = match rng.below(6) {
        0 => texts.saturating_sub(1),
        1 => rng.below(texts + 1),
        _ => texts + rng.below(5),
    };
    (event_words, text_room)
}

/// A valid list is written to the sample's own bits, and reads back as that list.
fn valid_list(tally: &mut Tally, rng: &mut Rng) -> Result<(), String> {
    let (table, sample) = table_and_sample(rng, 0);
    let payload = sample.payload();
    let fits = payload.len() <= bim::MOST_PAYLOAD && sample.events.len() <= bim::MOST_EVENTS;
    let mut call = sample.writing(&table, 0);
    let (answer, written) = demands::write(tally, &call)?;
    if answer.is_accepted() != fits {
        return Err(format!("a valid list gets {answer:?}"));
    }
    if !fits {
        return Ok(());
    }
    if written != payload || answer.bits != sample.bits.len() {
        return Err(format!("{payload:02x?} should be written, not {written:02x?}"));
    }
    // The short call gives the same exactly where the list is of mode 2: any other it refuses, or begins with another byte.
    let short = demands::write(tally, &Write { mode: None, ..call.clone() })?;
    if (short == (answer, written)) != (sample.mode == bim::MODE_ALWAYS) {
        return Err(format!("of mode {}, and the short call gives {short:02x?}", sample.mode));
    }
    let mut read_call = sample.reading(&table, call.events.len(), sample.texts.len());
    let outcome = demands::read(tally, &read_call)?;
    if outcome.list() != sample.events || outcome.text() != sample.texts {
        return Err(format!("{:?} reads as {:?}", sample.events, outcome.list()));
    }
    // One unit less of each room.
    call.room -= 1;
    let short = demands::write(tally, &call)?.0.number;
    read_call.event_words -= 1;
    let few = demands::read(tally, &read_call)?.answer.number;
    read_call.event_words += 1;
    let mut tight = bim::TEXT_ROOM;
    if !sample.texts.is_empty() {
        read_call.text_room -= 1;
        tight = demands::read(tally, &read_call)?.answer.number;
    }
    if (short, few, tight) != (bim::PAYLOAD_ROOM, bim::EVENT_ROOM, bim::TEXT_ROOM) {
        return Err(format!("short rooms give {short}, {few}, {tight}"));
    }
    Ok(())
}

/// A list that opens about as many rows as may be, some too many: written, read, and under two tables.
fn deep_list(tally: &mut Tally, rng: &mut Rng) -> Result<(), String> {
    let party = gen::any_party(rng);
    let table = gen::deep_table(rng, party);
    let Some(mut sample) = gen::deep_sample(rng, &table, party) else {
        return Ok(());
    };
    let undamaged = !rng.one_in(3);
    if !undamaged {
        gen::damage_list(rng, &mut sample.events, &mut sample.texts);
    }
    let mut call = sample.writing(&table, 9);
    demands::write(tally, &call)?;
    call.mode = None;
    demands::write(tally, &call)?;
    let first = gen::let_go(rng, party, &table, 12);
    let mut call = sample.reading(&table, 4 * sample.events.len() + 16, sample.texts.len());
    if undamaged && rng.one_in(3) {
        sample.pad(rng);
        call.payload = sample.payload();
    }
    two_tables(tally, &first, &call)
}

/// A payload with padded lengths reads as its list; then by two tables, and damaged.
fn padded_lengths(tally: &mut Tally, rng: &mut Rng) -> Result<(), String> {
    let (table, sample) = table_and_padded(rng);
    let mut call = sample.reading(&table, 4 * sample.events.len(), sample.texts.len());
    let outcome = demands::read(tally, &call)?;
    let fits = call.payload.len() <= bim::MOST_PAYLOAD && sample.events.len() <= bim::MOST_EVENTS;
    if fits && (outcome.list() != sample.events || outcome.text() != sample.texts) {
        return Err(format!("padded, {:?} reads as {:?}", sample.events, outcome.list()));
    }
    let first = gen::let_go(rng, sample.party, &table, 4);
    two_tables(tally, &first, &call)?;
    gen::damage_payload(rng, &mut call.payload);
    (call.event_words, call.text_room) = rooms(rng, sample.events.len() + 3, sample.texts.len() + 8);
    two_tables(tally, &first, &call)
}

/// A byte in a text, mostly a control character: read by two tables, in rooms that may be short, and written.
fn control_characters(tally: &mut Tally, rng: &mut Rng) -> Result<(), String> {
    let (table, sample) = table_and_control(rng);
    let mut call = sample.reading(&table, 4 * sample.events.len(), sample.texts.len());
    let first = gen::let_go(rng, sample.party, &table, 4);
    two_tables(tally, &first, &call)?;
    (call.event_words, call.text_room) = rooms(rng, sample.events.len(), sample.texts.len());
    demands::read(tally, &call)?;
    demands::write(tally, &sample.writing(&table, 0)).map(drop)
}

/// Dates read by two tables, in rooms that may be short; one of their bits turned over; one of their fields changed in the list. Then a day and
/// two words by themselves, as judge, model and fast half have them.
fn dates(tally: &mut Tally, rng: &mut Rng) -> Result<(), String> {
    let (table, sample) = table_and_dates(rng);
    let mut call = sample.reading(&table, 4 * sample.events.len(), sample.texts.len());
    let first = gen::let_go(rng, sample.party, &table, 4);
    two_tables(tally, &first, &call)?;
    (call.event_words, call.text_room) = rooms(rng, sample.events.len(), sample.texts.len());
    demands::read(tally, &call)?;
    let at = rng.pick(&gen::dates(&sample.events));
    let bit = gen::place_of(&sample.events, at) + rng.below(sample.events[at][3] as usize);
    call.payload[bit / 8] ^= 0x80 >> (bit % 8);
    demands::read(tally, &call)?;
    let mut list = sample.writing(&table, 0);
    let words = &mut list.events[4 * at + 1..4 * at + 3];
    words.copy_from_slice(&gen::damage_date(rng, [words[0], words[1]]));
    demands::write(tally, &list)?;

    let (days, ms) = (gen::any_day(rng), gen::any_ms(rng));
    let of_model = model::date_words(days.into(), ms.into());
    let words = [value::words_of_date(calendar::date_of(days), ms), swift::calendar::words_of(days, ms)];
    if words != [of_model.into(); 2] {
        return Err(format!("day {days} and {ms} ms are {words:?}, and should be {of_model:?}"));
    }
    let [word, second] = gen::damage_date(rng, of_model);
    let of_model = model::date_of_words(word, second).map(|(days, ms)| (days as u32, ms as u32));
    let fast = swift::calendar::days_of(word, second);
    if fast != of_model {
        return Err(format!("{word} {second} is {fast:?}, and should be {of_model:?}"));
    }
    Ok(())
}

/// Settings by others between a party's readings and writings, on tables that may be damaged; then its own, and two in both orders.
fn settings(tally: &mut Tally, rng: &mut Rng) -> Result<(), String> {
    let (whole, sample) = match rng.below(4) {
        0 => table_and_padded(rng),
        1 => table_and_control(rng),
        _ => table_and_sample(rng, 0),
    };
    let (party, types) = (sample.party, whole[1]);
    let mut table = gen::let_go(rng, party, &whole, 4);
    if rng.one_in(8) {
        gen::damage_table(rng, &mut table);
    }
    let call = Read { table: table.clone(), ..sample.reading(&whole, 4 * sample.events.len(), sample.texts.len()) };
    let list = Write { table: table.clone(), ..sample.writing(&whole, 0) };
    let by_others: Vec<_> =
        (0..rng.within(1, 6)).map(|_| any_setting(rng, types)).filter(|set| set[0] != party).collect();
    let after = demands::set_all(tally, &table, &by_others)?;
    demands::others(tally, &after, &call, &list)?;
    // By one bit: any marks of the others at once.
    let mut after = table.clone();
    if check_table(tally, &table)?.is_none() {
        let others = bim::MOST_HELD & !(1 << party);
        (0..types as usize).for_each(|of_type| after[held_word(of_type)] ^= rng.word() & others);
    }
    demands::others(tally, &after, &call, &list)?;
    let own: Vec<_> =
        (0..rng.within(1, 3)).map(|_| [party, rng.below(types as usize) as u32, rng.below(2) as u32]).collect();
    let after = demands::set_all(tally, &table, &own)?;
    demands::read(tally, &Read { table: after, ..call })?;
    let (one, other) = (any_setting(rng, types), any_setting(rng, types));
    demands::commute(tally, &table, one, other)
}

/// Party, type and mark of a setting, mostly one that is accepted.
pub fn any_setting(rng: &mut Rng, types: u32) -> [u32; 3] {
    let party = if rng.one_in(8) { gen::edge_party(rng) } else { gen::any_party(rng) };
    let of_type = match rng.below(10) {
        0 => types,
        1 => gen::edge_word(rng),
        _ => rng.below(types as usize) as u32,
    };
    let mark = if rng.one_in(3) { gen::edge_word(rng) } else { rng.below(2) as u32 };
    [party, of_type, mark]
}

/// A payload with codes that no writer of ours makes.
fn odd_codes(tally: &mut Tally, rng: &mut Rng) -> Result<(), String> {
    let quirk = rng.pick(&[3, 8, 25]);
    let (table, sample) = table_and_sample(rng, quirk);
    let (event_words, text_room) = rooms(rng, sample.events.len(), sample.texts.len());
    let table = gen::let_go(rng, sample.party, &table, 5);
    demands::read(tally, &sample.reading(&table, event_words, text_room)).map(drop)
}

/// A payload damaged from outside, now and then with a wrong root.
fn damaged_payload(tally: &mut Tally, rng: &mut Rng) -> Result<(), String> {
    let (table, sample) = table_and_sample(rng, 0);
    let mut call = sample.reading(&table, 0, 0);
    gen::damage_payload(rng, &mut call.payload);
    (call.event_words, call.text_room) = rooms(rng, sample.events.len() + 3, sample.texts.len() + 8);
    call.table = gen::let_go(rng, sample.party, &table, 5);
    match rng.below(40) {
        3 => call.party = gen::edge_party(rng),
        0 => call.root.1 = table[1] + rng.below(2) as u32,
        1 => call.root.0 = gen::edge_word(rng),
        2 => call.root.1 = gen::edge_word(rng),
        _ => {}
    }
    demands::read(tally, &call).map(drop)
}

/// Demand 3, on whole, odd and damaged payloads.
fn two_table_trial(tally: &mut Tally, rng: &mut Rng) -> Result<(), String> {
    let quirk = rng.pick(&[0, 0, 60]);
    let (table, sample) = table_and_sample(rng, quirk);
    let mut call = sample.reading(&table, 4 * sample.events.len() + 40, sample.texts.len() + 40);
    if rng.one_in(4) {
        gen::damage_payload(rng, &mut call.payload);
    }
    let second = gen::let_go(rng, sample.party, &table, 8);
    let first = gen::let_go(rng, sample.party, &second, 3);
    // Room for the first, and not always for the second: the last part of demand 3.
    call.table.clone_from(&first);
    let least = demands::read(tally, &call)?.answer;
    let tight = least.is_accepted() && least.events < sample.events.len() && rng.one_in(2);
    if tight {
        call.event_words = 4 * rng.within(least.events, sample.events.len());
        call.text_room = rng.within(least.text, sample.texts.len().max(least.text));
    } else if rng.one_in(4) {
        (call.event_words, call.text_room) = rooms(rng, sample.events.len(), sample.texts.len());
    }
    call.table = second;
    two_tables(tally, &first, &call)
}

/// A list damaged, a type let go, a wrong mode, root, room or shape.
fn damaged_list(tally: &mut Tally, rng: &mut Rng) -> Result<(), String> {
    let (table, mut sample) = table_and_sample(rng, 0);
    if !rng.one_in(4) {
        gen::damage_list(rng, &mut sample.events, &mut sample.texts);
    }
    let mut call = sample.writing(&table, 0);
    if rng.one_in(5) {
        call.table = gen::let_go(rng, sample.party, &table, 4);
    }
    if rng.one_in(30) {
        call.events.pop();
    }
    if rng.one_in(10) {
        call.mode = any_mode(rng);
    }
    match rng.below(30) {
        0 => call.root.1 = gen::edge_word(rng),
        1 => call.root.0 = gen::edge_word(rng),
        2 => call.party = gen::edge_party(rng),
        _ => {}
    }
    call.room = match rng.below(8) {
        0 => call.room.saturating_sub(1),
        1 => rng.below(call.room + 1),
        _ => call.room + rng.below(20),
    };
    demands::write(tally, &call)?;
    demands::write(tally, &Write { mode: None, ..call }).map(drop)
}

/// Any mode, right or wrong; or none, for the short call.
fn any_mode(rng: &mut Rng) -> Option<u32> {
    (!rng.one_in(9)).then(|| rng.below(9) as u32)
}

/// A table damaged: the check against the model's, and all calls give the same word.
fn damaged_table(tally: &mut Tally, rng: &mut Rng) -> Result<(), String> {
    let party = gen::any_party(rng);
    let mut table = gen::table(rng, party);
    for _ in 0..rng.within(0, 2) {
        gen::damage_table(rng, &mut table);
        if table.is_empty() {
            break;
        }
    }
    if rng.one_in(30) {
        table = (0..rng.below(40)).map(|_| gen::edge_word(rng)).collect();
    }
    let fault = check_table(tally, &table)?;
    let root = (rng.below(9) as u32, rng.below(3) as u32);
    let read = Read { table: table.clone(), party, root, payload: gen::noise(rng), event_words: 400, text_room: 100 };
    let read = demands::read(tally, &read)?.answer;
    let events = vec![bim::KIND_START, root.0, 0, 0, bim::KIND_END, 0, 0, 0];
    let of_type = rng.below(3) as u32;
    let set = demands::set(tally, &Set { table: table.clone(), party, of_type, mark: rng.below(3) as u32 })?.0;
    let list = Write { table, party, root, mode: any_mode(rng), events, texts: vec![], room: 40 };
    let written = demands::write(tally, &list)?.0;
    for answer in [read, written, set] {
        let named = (answer.number == bim::TABLE).then_some(answer.place as usize);
        if named != fault {
            return Err(format!("the check names {fault:?}, a call {answer:?}"));
        }
    }
    Ok(())
}

/// Any root, any bits.
fn noise(tally: &mut Tally, rng: &mut Rng) -> Result<(), String> {
    let party = gen::any_party(rng);
    let table = gen::table(rng, party);
    let first = gen::let_go(rng, party, &table, 4);
    let payload = gen::noise(rng);
    let (event_words, text_room) = rooms(rng, 100, 40);
    let root = (rng.below(50) as u32, rng.below(table[1] as usize) as u32);
    let call = Read { table, party, root, payload, event_words, text_room };
    two_tables(tally, &first, &call)?;
    // The same bits as a list.
    let events: Vec<_> = (0..4 * rng.below(6)).map(|_| rng.below(9) as u32).collect();
    let mode = any_mode(rng);
    demands::write(tally, &Write { table: call.table, party, root, mode, events, texts: vec![], room: 40 }).map(drop)
}

/// Every code by itself, from any bit up to any wall, against the model's; then written and read back.
fn codes_alone(rng: &mut Rng) -> Result<(), String> {
    let mut payload: Vec<_> = (0..rng.within(0, 12)).map(|_| rng.word() as u8).collect();
    if rng.one_in(2) {
        let run = rng.below(payload.len() + 1);
        payload[..run].fill(rng.pick(&[0x00, 0xff, 0xf0, 0xfe, 0x80]));
    }
    let end = rng.within(0, 8 * payload.len());
    let at = rng.within(0, end);
    let fetch = || model::Fetch::new(&payload, end, at);
    let agree = |what: &str, got: String, expected: String| {
        if got == expected {
            return Ok(());
        }
        Err(format!("{what} from {at} to {end} of {payload:02x?}: {got}, and should {expected}"))
    };

    let bits = rng.below(33);
    let got = bits::fixed(&payload, end, at, bits as u32).map(i64::from);
    agree("fixed", format!("{got:?}"), format!("{:?}", fetch().fixed(bits)))?;

    for (what, got, of_model) in [
        ("vluimsbf5", codes::read5(&payload, end, at), with_bits(fetch(), at, model::Fetch::loose5)),
        ("vluimsbf8", codes::read8(&payload, end, at), with_bits(fetch(), at, model::Fetch::loose8)),
    ] {
        let got = got.map(|read| (i64::from(read.value), read.shortest, read.bits));
        let expected = of_model.map(|((value, shortest), bits)| (value, shortest, bits));
        agree(what, format!("{got:?}"), format!("{expected:?}"))?;
    }
    let strict = codes::strict5(&payload, end, at).map(|taken| (i64::from(taken.value), taken.bits));
    let expected = with_bits(fetch(), at, |fetch| fetch.upto(i64::MAX));
    agree("strict vluimsbf5", format!("{strict:?}"), format!("{expected:?}"))?;

    let (least, most) = loop {
        let (least, most) = (gen::edge_word(rng), gen::edge_word(rng));
        if least <= bim::MOST_TIMES && (1..=bim::UNBOUNDED).contains(&most) && least <= most {
            break (least, most);
        }
    };
    let got = codes::read_occurs(least, most, &payload, end, at).map(|taken| (i64::from(taken.value), taken.bits));
    let expected = with_bits(fetch(), at, |fetch| fetch.count(least.into(), most.into()));
    agree("occurs", format!("{got:?}"), format!("{expected:?}"))?;

    let kind = rng.below(9) as u32;
    let (b, c) = match kind {
        bim::RANGED => {
            let (one, two) = (gen::edge_word(rng) as i32, gen::edge_word(rng) as i32);
            (one.min(two) as u32, one.max(two) as u32)
        }
        bim::ENUMERATION => (rng.within(1, bim::MOST_VALUES as usize) as u32, 0),
        _ => (0, 0),
    };
    let got = value::read(kind, b, c, &payload, end, at).map(|read| ([read.word, read.second], read.text, read.bits));
    let expected = with_bits(fetch(), at, |fetch| fetch.value(kind.into(), b.into(), c.into()))
        .map(|((words, text), bits)| (words, text.len(), bits));
    agree("value", format!("{got:?}"), format!("{expected:?}"))?;

    let mut word = gen::edge_word(rng);
    let mut second = 0;
    if value::is_date(kind) {
        let date = model::date_words(gen::any_day(rng).into(), 0);
        [word, second] = if rng.one_in(2) { gen::damage_date(rng, date) } else { date };
    }
    let as_model = |code: Option<bits::Code>| code.map(|code| model::bits_of(code.bits, code.width as usize));
    let got = as_model(value::write(kind, b, c, word, second).ok());
    let expected = model::value_bits(kind.into(), b.into(), c.into(), [word, second]);
    agree("written value", format!("{got:?}"), format!("{expected:?}"))?;
    let got = as_model(codes::write_occurs(least, most, word));
    let expected = model::count_bits(least.into(), most.into(), word);
    agree("written count", format!("{got:?}"), format!("{expected:?}"))?;
    let choices = (1_u64 << rng.below(32)) + rng.below(3) as u64;
    let expected = model::width(choices as i64);
    agree("width", codes::width(choices).to_string(), expected.to_string())?;

    let mut text: Vec<_> = (0..rng.below(14))
        .map(|_| rng.pick(&[0x41, 0x80, 0xbf, 0xc2, 0xe0, 0xa0, 0xed, 0x9f, 0xf0, 0x90, 0xf4, 0x8f, 0xef]))
        .collect();
    if rng.one_in(2) {
        text = vec![0x41; rng.below(40)];
    }
    for _ in 0..rng.below(3) {
        let at = rng.below(text.len() + 1);
        text.insert(at, gen::text_byte(rng));
    }
    let of_model = model::text_fault(&text).err().unwrap_or(0);
    agree("text", format!("{} {text:02x?}", utf8::check(&text)), format!("{of_model} {text:02x?}"))
}

/// What a fetch of the model gives, and the bits it took.
fn with_bits<'a, T>(
    mut fetch: model::Fetch<'a>,
    at: usize,
    read: impl Fn(&mut model::Fetch<'a>) -> Result<T, u32>,
) -> Result<(T, usize), u32> {
    let value = read(&mut fetch)?;
    Ok((value, fetch.at - at))
}

/// The area that an answer fills.
fn area_of(answer: &Answer) -> Vec<u8> {
    let names = answer.path.names();
    let mut area = big_endian(&[
        answer.place as u32,
        answer.mode,
        answer.events as u32,
        answer.text as u32,
        answer.bits as u32,
        names.len() as u32,
    ]);
    area.extend(names.iter().flat_map(|name| name.to_be_bytes()));
    area.resize(bim::AREA, 0);
    area
}

/// The byte calls against the word calls; 24, and bytes over the last whole word.
fn boundary(rng: &mut Rng) -> Result<(), String> {
    let (mut table, sample) = match rng.below(4) {
        0 => table_and_padded(rng),
        1 => table_and_sample(rng, 0),
        _ => table_and_sample(rng, 20),
    };
    if rng.one_in(8) {
        gen::damage_table(rng, &mut table);
    }
    let mut payload = sample.payload();
    if rng.one_in(3) {
        gen::damage_payload(rng, &mut payload);
    }
    let mut table_bytes = big_endian(&table);
    let ragged = rng.one_in(8);
    if ragged {
        let more = rng.within(1, 3);
        table_bytes.extend(vec![0xdd; more]);
    }
    let whole = table.len();
    let area_bytes = if rng.one_in(10) { rng.below(300) } else { bim::AREA };
    let fault = match model::check_table(&table) {
        Some(word) if word < 4 => Some(word),
        _ if ragged => Some(whole),
        fault => fault,
    };
    let refused = |word: usize| Answer::refused(refusal(bim::TABLE, word), Path::empty());
    let agree = |what: &str, got: (u32, Vec<u8>, Vec<u8>), expected: (u32, Vec<u8>, Vec<u8>)| {
        if got == expected {
            return Ok(());
        }
        Err(format!("{what}: {got:02x?}, and should {expected:02x?}"))
    };
    let zeros = |buffer: &[u8]| vec![0; buffer.len()];

    let mut area = vec![0xdd; area_bytes];
    let number = host::check_table(&table_bytes, &mut area);
    let expected = match (area_bytes, fault) {
        (bim::AREA, None) => (bim::ACCEPTED, vec![0; bim::AREA], vec![]),
        (bim::AREA, Some(word)) => (bim::TABLE, area_of(&refused(word)), vec![]),
        _ => (bim::AREA_SIZE, zeros(&area), vec![]),
    };
    agree("bim_check_table", (number, area, vec![]), expected)?;

    let mut events = vec![0xdd; 16 * rng.below(sample.events.len() + 2) + rng.below(20)];
    let mut texts = vec![0xdd; rng.below(sample.texts.len() + 9)];
    let mut area = vec![0xdd; area_bytes];
    let (name, of_type) = sample.root;
    let party = if rng.one_in(9) { gen::edge_party(rng) } else { sample.party };
    let number = host::read(&table_bytes, party, name, of_type, &payload, &mut events, &mut texts, &mut area);
    let mut out = events.clone();
    out.extend(&texts);
    let expected = if area_bytes != bim::AREA {
        (bim::AREA_SIZE, zeros(&area), zeros(&out))
    } else if let Some(word) = fault {
        (bim::TABLE, area_of(&refused(word)), zeros(&out))
    } else {
        let mut words = vec![0; 4 * (events.len() / 16)];
        let mut text = vec![0; texts.len()];
        let answer = reader::read(&table, party, name, of_type, &payload, &mut words, &mut text);
        let mut out = big_endian(&words);
        out.resize(events.len(), 0);
        out.extend(text);
        (answer.number, area_of(&answer), out)
    };
    agree("bim_read", (number, area, out), expected)?;

    let mut list = big_endian(&sample.events.concat());
    if rng.one_in(6) {
        let length = rng.below(list.len() + 1);
        list.truncate(length);
    }
    let mode = rng.pick(&[sample.mode, sample.mode, sample.mode, 3]);
    let mut out = vec![0xdd; sample.bits.len().div_ceil(8) + rng.below(4)];
    let mut area = vec![0xdd; area_bytes];
    let number = host::write(&table_bytes, party, name, of_type, mode, &list, &sample.texts, &mut out, &mut area);
    let expected = if area_bytes != bim::AREA {
        (bim::AREA_SIZE, zeros(&area), zeros(&out))
    } else if let Some(word) = fault {
        (bim::TABLE, area_of(&refused(word)), zeros(&out))
    } else {
        // Bytes over a whole word read as one more word: the list is as ragged, and its events as many.
        let mut words: Vec<_> = list.chunks(4).map(|word| u32::from_be_bytes([word[0], 0, 0, 0])).collect();
        if list.len().is_multiple_of(4) {
            words = words_of(&list);
        } else if list.len() % 16 > 12 {
            words.pop();
        }
        let mut bytes = vec![0; out.len()];
        let answer = writer::write(&table, party, name, of_type, mode, &words, &sample.texts, &mut bytes);
        (answer.number, area_of(&answer), bytes)
    };
    agree("bim_write", (number, area, out), expected)?;

    let [party, of_type, mark] = any_setting(rng, 5);
    let mut area = vec![0xdd; area_bytes];
    let mut set = table_bytes.clone();
    let number = host::set_held(&mut set, party, of_type, mark, &mut area);
    let expected = if area_bytes != bim::AREA {
        (bim::AREA_SIZE, zeros(&area), table_bytes)
    } else if let Some(word) = fault {
        (bim::TABLE, area_of(&refused(word)), table_bytes)
    } else {
        let (answer, words) = Set { table, party, of_type, mark }.ask();
        (answer.number, area_of(&answer), big_endian(&words))
    };
    agree("bim_set_held", (number, area, set), expected)
}
