//! Request 14: the page's examples by hand, and the calendars of judge, model and fast half against one that counts day by day.

mod common;

use common::{read, table_of, write};
use peer::calendar::{date_of, day_of, days_of_month, Date};
use peer::calls::{change, decode, seeds, Bench};
use peer::rng::Rng;
use peer::rows::Rows;
use peer::value::words_of_date;
use peer::words::words_of;
use peer::{calls_of, model, swift, table};

/// A root of this simple kind.
fn root_of(kind: u32) -> Vec<u32> {
    table_of(&[[1, 1, 0, 0, kind, 0, 0]], &[], &[])
}

/// The next day of the plain calendar.
fn next([year, month, day]: [u32; 3]) -> [u32; 3] {
    let leap = year % 4 == 0 && (year % 100 != 0 || year % 400 == 0);
    let lengths = [31, if leap { 29 } else { 28 }, 31, 30, 31, 30, 31, 31, 30, 31, 30, 31];
    match (day < lengths[month as usize - 1], month < 12) {
        (true, _) => [year, month, day + 1],
        (false, true) => [year, month + 1, 1],
        (false, false) => [year + 1, 1, 1],
    }
}

#[test]
fn what_is_read() {
    let accepted = |kind: u32, payload: &[u8], p: u32, q: u32| {
        let bits = if kind == 7 { 64 } else { 32 };
        let events = [[1, 1, 0, 0], [3, p, q, bits as u32], [6, 0, 0, 0]];
        read(&root_of(kind), 1, 0, payload, 2048, 0).accepted(0, &events, b"", 8 + bits);
    };
    accepted(7, &[0x0f, 0x00, 0x00, 0xad, 0x2a, 0x00, 0x6d, 0xdd, 0x00], 31684, 141_417_728);
    accepted(7, &[0x0f, 0x00, 0x00, 0xc9, 0x75, 0x02, 0x9c, 0x59, 0xa8], 32001, 4_070_332_840);
    accepted(7, &[0x0f, 0x00, 0x00, 0xcb, 0x01, 0, 0, 0, 0], 32019, 134_217_728);
    accepted(7, &[0x0f, 0, 0, 0, 0, 0, 0, 0, 0], 29739, 2_281_701_376);
    accepted(7, &[0x0f, 0xff, 0xff, 0xff, 0xff, 0x05, 0x26, 0x5b, 0xff], 188_177_276, 891_706_367);
    accepted(8, &[0x0f, 0x00, 0x00, 0xad, 0x2a], 31684, 134_217_728);
    accepted(8, &[0x0f, 0, 0, 0, 0x2c], 29740, 4_160_749_568);
    accepted(8, &[0x0f, 0, 0, 0, 0x2d], 29745, 134_217_728);
    accepted(8, &[0x0f, 0xff, 0xff, 0xff, 0xff], 188_177_276, 805_306_368);
    let late = [0x0f, 0, 0, 0, 0, 0x05, 0x26, 0x5c, 0x00];
    read(&root_of(7), 1, 0, &late, 2048, 0).refused(14, 8, &[1]);
    read(&root_of(7), 1, 0, &late[..8], 2048, 0).refused(5, 8, &[1]);
    let attribute = table_of(&[[1, 0, 0, 1, 0, 0, 0], [1, 1, 0, 0, 8, 0, 0]], &[[20, 0, 1]], &[]);
    let events = [[1, 1, 0, 0], [2, 20, 1, 1], [3, 31684, 134_217_728, 32], [6, 0, 0, 0]];
    read(&attribute, 1, 0, &[0x0f, 0x80, 0x00, 0x56, 0x95, 0x00], 2048, 0).accepted(0, &events, b"", 41);
}

#[test]
fn what_is_written() {
    let asked =
        |kind: u32, p: u32, q: u32| write(&root_of(kind), 1, 0, 0, &[[1, 1, 0, 0], [3, p, q, 0], [6, 0, 0, 0]], b"", 9);
    let written = asked(7, 31684, 141_417_728);
    assert_eq!((written.answer.number, written.answer.bits), (0, 72));
    assert_eq!(written.payload, [0x0f, 0x00, 0x00, 0xad, 0x2a, 0x00, 0x6d, 0xdd, 0x00]);
    let written = asked(8, 32002, 3_892_314_112);
    assert_eq!((written.answer.number, written.answer.bits), (0, 40));
    assert_eq!(written.payload, [0x0f, 0x00, 0x00, 0xc9, 0x93, 0, 0, 0, 0]);
    let no_dates =
        [(30402, 3_892_314_112), (32397, 134_217_728), (32388, 4_160_749_568), (32388, 0), (32388, 134_217_729)];
    no_dates.iter().for_each(|&(p, q)| asked(8, p, q).refused(20, 1));
    let no_date_times = [(32388, 220_617_728), (29739, 2_147_483_648), (188_177_276, 939_524_096)];
    no_date_times.iter().for_each(|&(p, q)| asked(7, p, q).refused(20, 1));
    // The second word of every other kind stays 0.
    (0..7).for_each(|kind| {
        asked(kind, 0, 134_217_728).refused(if kind == 4 { 1 } else { 18 }, if kind == 4 { 9 } else { 1 })
    });
}

#[test]
fn what_a_table_may_have() {
    for kind in [7, 8] {
        let words = root_of(kind);
        assert_eq!(table::check(&words), Ok(()));
        for at in [9, 10] {
            let mut wrong = words.clone();
            wrong[at] = 1;
            assert_eq!(table::check(&wrong), Err(at));
        }
    }
    assert_eq!(table::check(&root_of(9)), Err(8));
}

calls_of!(Swift = swift::check_table, swift::read, swift::write, swift::write_lengths, swift::set_held);

/// The fuzzer's own changes, from the named cases that have a type of kind 7 or 8 on: both answer alike, and 14 and 20 are met.
#[test]
fn changed_dates_are_answered_alike() {
    let mut rng = Rng::new(14);
    let has_dates = |case: &&Vec<u8>| {
        let table = decode(case).inputs.swap_remove(0);
        let table = words_of(&table);
        table::check(&table).is_ok() && Rows::of(&table).types.iter().any(|row| row[1] == 1 && row[4] >= 7)
    };
    let seeds = seeds();
    let seeds: Vec<_> = seeds.iter().filter(has_dates).collect();
    let mut bench = Bench::new(&Swift, 14);
    bench.begin_part("changes");
    let mut refused = [0; 27];
    for _ in 0..20_000 {
        let mut case = decode(seeds[rng.below(seeds.len())]);
        for _ in 0..rng.within(1, 3) {
            change(&mut rng, &mut case);
            refused[bench.ask("changed", &case).number as usize] += 1;
        }
    }
    assert_eq!(bench.differing(), 0);
    assert!(refused[14] > 100 && refused[20] > 1000, "{refused:?}");
}

/// All three calendars have this date for the day, and the day for the date.
fn agree(day: u32, date: [u32; 3]) {
    let [year, month, of_month] = date;
    let words = (16 * year + month, of_month << 27);
    let plain = Date { year: year.into(), month: month.into(), day: of_month.into() };
    assert_eq!(date_of(day), plain);
    assert_eq!(words_of_date(plain, 0), words);
    assert_eq!(model::date_words(day.into(), 0), [words.0, words.1]);
    assert_eq!(swift::calendar::words_of(day, 0), words);
    assert_eq!(day_of(plain), Some(day));
    assert_eq!(model::date_of_words(words.0, words.1), Some((day.into(), 0)));
    assert_eq!(swift::calendar::days_of(words.0, words.1), Some((day, 0)));
}

/// Walks so many days from this one, whose date is known.
fn walk(first: u32, date: [u32; 3], days: u32) {
    let mut date = date;
    for day in first..=first + (days - 1) {
        agree(day, date);
        date = next(date);
    }
}

#[test]
fn every_day_of_five_hundred_years() {
    walk(0, [1858, 11, 17], 200_000);
}

#[test]
fn the_last_days() {
    let date = date_of(u32::MAX - 200_000);
    walk(u32::MAX - 200_000, [date.year, date.month, date.day].map(|field| field as u32), 200_001);
    agree(u32::MAX, [11_761_079, 12, 6]);
}

#[test]
fn days_before_the_first_are_counted_back() {
    // Day by day from 1601-01-01, where the judge's stretches of 400 years begin, and from 0000-03-01, where the fast half's do.
    for (from, before) in [([1601, 1, 1], 94_187), ([0, 3, 1], 678_881)] {
        let mut date = from;
        (0..before).for_each(|_| date = next(date));
        assert_eq!(date, [1858, 11, 17]);
    }
}

/// The first and last days of every year, and those about its February: by whole years, from the first day to the last.
#[test]
fn every_year() {
    let mut first_of_year = 45_u64;
    for year in 1859..=11_761_079_u32 {
        let leap = u32::from(year % 4 == 0 && (year % 100 != 0 || year % 400 == 0));
        let met = |of_year: u32, month: u32, day: u32| {
            if let Ok(days) = u32::try_from(first_of_year + u64::from(of_year)) {
                let words = (16 * year + month, day << 27);
                assert_eq!(swift::calendar::words_of(days, 0), words);
                assert_eq!(swift::calendar::days_of(words.0, words.1), Some((days, 0)));
            }
        };
        met(0, 1, 1);
        met(58, 2, 28);
        met(59, if leap == 1 { 2 } else { 3 }, if leap == 1 { 29 } else { 1 });
        met(364 + leap, 12, 31);
        assert_eq!(swift::calendar::days_of(16 * year + 2, 29 << 27).is_some(), leap == 1);
        first_of_year += 365 + u64::from(leap);
    }
    assert_eq!(first_of_year - 25 - 1, u64::from(u32::MAX), "the last year has 25 days more than there are numbers");
}

/// All 2^32 days, one after the other: some minutes, so that it runs when asked for (`cargo test --release --test dates -- --ignored`).
#[test]
#[ignore]
fn every_day() {
    let mut date = [1858, 11, 17];
    for day in 0..=u32::MAX {
        let words = (16 * date[0] + date[1], date[2] << 27);
        assert!(
            swift::calendar::words_of(day, 0) == words && swift::calendar::days_of(words.0, words.1) == Some((day, 0))
        );
        date = next(date);
    }
    assert_eq!(date, [11_761_079, 12, 7]);
}

/// Of the years about every limit, each month from 0 to 15 and each day from 0 to 31: a day number exactly where the calendar has the day and
/// it lies among the 2^32.
#[test]
fn dates_that_are_none() {
    let years =
        [0, 1, 4, 1600, 1700, 1856, 1857, 1858, 1859, 1899, 1900, 1904, 1999, 2000, 2001, 2100, 2400, 9999, 10_000];
    let late = [11_761_076, 11_761_078, 11_761_079, 11_761_080, 1 << 24, (1 << 28) - 1];
    for year in years.into_iter().chain(late) {
        for month in 0..16 {
            for day in 0..32 {
                let date = Date { year, month, day };
                let is_date = (1..=12).contains(&month) && (1..=days_of_month(year, month)).contains(&day);
                let inside = ((1858, 11, 17)..=(11_761_079, 12, 6)).contains(&(year, month, day));
                let got = day_of(date);
                assert_eq!(got.is_some(), is_date && inside, "{date:?}");
                assert_eq!(got.map(date_of), got.map(|_| date));
                let (word, second) = ((16 * year + month) as u32, (day << 27) as u32);
                assert_eq!(model::date_of_words(word, second), got.map(|days| (days.into(), 0)), "{date:?}");
                assert_eq!(swift::calendar::days_of(word, second), got.map(|days| (days, 0)), "{date:?}");
            }
        }
    }
}

#[test]
fn milliseconds_of_a_day() {
    for ms in [0, 1, 43_200_000, 86_399_999] {
        let (word, second) = swift::calendar::words_of(44_330, ms);
        assert_eq!((word, second), (31684, 134_217_728 + ms));
        assert_eq!(model::date_words(44_330, ms.into()), [word, second]);
        assert_eq!(swift::calendar::days_of(word, second), Some((44_330, ms)));
        assert_eq!(model::date_of_words(word, second), Some((44_330, ms.into())));
    }
    for ms in [86_400_000, 86_400_001, (1 << 27) - 1] {
        assert_eq!(swift::calendar::days_of(31684, 134_217_728 + ms), None);
        assert_eq!(model::date_of_words(31684, 134_217_728 + ms), None);
    }
}
