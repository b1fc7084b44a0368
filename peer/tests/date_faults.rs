//! The comparison of the C calls notices every one of these faults in dates, and none in the peer itself.

#[macro_use]
mod common;

use peer::bim;
use peer::calls::{run, Calls, Reading, Setting, Writing};
use peer::host;
use peer::model::{date_of_words, date_words};
use peer::rows::Rows;
use peer::words::{big_endian, words_of};

faults! {
    /// 1900 is a leap year.
    Leap1900,
    /// 2000 is none.
    NoLeap2000,
    /// Days from 2^31 on are read as others.
    Days31Bits,
    /// Days from the year 10000 on are read as others.
    FourDigits,
    /// Days since the year 0 are counted in 32 bits.
    DaysWrap,
    /// The same in the writer: a day that passes is another.
    WrittenDaysWrap,
    /// Day 0 is 1858-11-18.
    DayLate,
    /// A dateTime has its milliseconds first.
    MsFirst,
    /// They are written first.
    WrittenMsFirst,
    /// 14 stands before 5.
    ClockBeforeEnd,
    /// A day or more of milliseconds is 13.
    ClockIs13,
    /// 86,400,000 ms are read: the next day.
    MidnightRead,
    /// They are written: the next day.
    MidnightWritten,
    /// 7 stands before 14.
    RoomBeforeClock,
    /// The day stands in the first word as its number.
    DayNumber,
    /// A date has no second word.
    NoSecondWord,
    /// A second word of any value is let through.
    SecondWordTaken,
    /// A date's milliseconds are dropped.
    DateWithMs,
    /// The 31st of a month of 30 days is the first of the next.
    DayRolls,
    /// Month 13 is the next January.
    MonthRolls,
    /// Day 0 of a month is its first.
    DayFrom0,
    /// The day before the first is the last of all.
    BeforeTheFirst,
    /// The day past the last is the first of all.
    PastTheLast,
    /// A year is cut to 24 bits.
    YearCut,
    /// What is no date is 18.
    NoDateIs18,
    /// 21 stands before 20.
    RoomBeforeDate,
    /// Simple kind 9 is taken.
    Kind9,
    /// Dates may have parameters.
    Parameters,
    /// Kinds 7 and 8 are refused.
    OldReceiver,
    /// Attributes have no dates.
    NoAttributes,
    /// In form 2 there are no dates.
    FormPlainAlone,
    /// A clock in a Blank is judged.
    BlankJudged,
}
use Fault::*;

struct StandIn(Fault);

fn word(bytes: &[u8], index: usize) -> u32 {
    u32::from_be_bytes(bytes[4 * index..4 * index + 4].try_into().unwrap())
}

/// The events that are dates, with day number, milliseconds and bits: no other Value has a second word.
fn each_date(events: &mut [u8], change: impl Fn(u32, u32, u32) -> [u32; 2]) {
    for event in events.chunks_exact_mut(bim::EVENT) {
        if word(event, 0) == bim::KIND_VALUE && word(event, 2) != 0 {
            if let Some((days, ms)) = date_of_words(word(event, 1), word(event, 2)) {
                let [p, q] = change(days as u32, ms as u32, word(event, 3));
                event[4..8].copy_from_slice(&p.to_be_bytes());
                event[8..12].copy_from_slice(&q.to_be_bytes());
            }
        }
    }
}

/// What a reader with this fault has for a date.
fn misread(fault: Fault, days: u32, ms: u32, bits: u32) -> [u32; 2] {
    let words = |days: u32| date_words(days.into(), ms.into());
    match fault {
        Leap1900 if days == 15_079 => [16 * 1900 + 2, 29 << 27 | ms],
        Leap1900 if days > 15_079 => words(days - 1),
        NoLeap2000 if days >= 51_603 => words(days.saturating_add(1)),
        Days31Bits if days >= 1 << 31 => words(days - (1 << 31)),
        FourDigits if words(days)[0] >= 160_000 => [words(days)[0] % 160_000, words(days)[1]],
        DaysWrap if days > u32::MAX - 678_881 => words(days.wrapping_add(678_881)),
        DayLate => words(days.saturating_add(1)),
        MsFirst if bits == 64 => date_words(ms.into(), (days % bim::DAY_MS).into()),
        DayNumber => [days, words(days)[1]],
        NoSecondWord => [words(days)[0], 0],
        _ => words(days),
    }
}

/// What a writer with this fault makes of the words of a Value that was refused with 18 or 20.
fn mistaken(fault: Fault, number: u32, p: u32, q: u32) -> Option<[u32; 2]> {
    let (year, month, day, ms) = (p >> 4, p & 15, q >> 27, q & ((1 << 27) - 1));
    let first = [16 * 1858 + 11, 17 << 27 | ms];
    let last = [16 * 11_761_079 + 12, 6 << 27 | ms];
    match (fault, number) {
        (SecondWordTaken, bim::NO_READING) if q != 0 => Some([p, 0]),
        (_, bim::NO_READING) => Option::None,
        (Leap1900, _) if (p, day) == (16 * 1900 + 2, 29) => Some([16 * 1900 + 3, 1 << 27 | ms]),
        (WrittenDaysWrap | PastTheLast, _) if (p, day) == (last[0], 7) => Some(first),
        (BeforeTheFirst, _) if (p, day) == (first[0], 16) => Some(last),
        (MidnightWritten, _) if ms == bim::DAY_MS => Some([p, (day + 1) << 27]),
        (DateWithMs, _) if ms != 0 => Some([p, day << 27]),
        (DayRolls, _) if day > 28 && month < 12 => Some([p + 1, 1 << 27 | ms]),
        (MonthRolls, _) if month == 13 => Some([16 * (year + 1) + 1, q]),
        (DayFrom0, _) if day == 0 => Some([p, 1 << 27 | ms]),
        (YearCut, _) if year >= 1 << 24 => Some([p % (1 << 28), q]),
        _ => Option::None,
    }
}

/// The table as a fault has it, and whether it is refused for it at some word.
fn mistaken_table(fault: Fault, table: &[u8]) -> (Vec<u8>, Option<usize>) {
    let mut area = [0; bim::AREA];
    let mut words = words_of(table);
    if !table.len().is_multiple_of(4) {
        return (table.to_vec(), Option::None);
    }
    let mut number = host::check_table(table, &mut area);
    let mut place = word(&area, 0) as usize;
    while number == bim::TABLE && place >= 4 && place < words.len() {
        match fault {
            Kind9 if words[place] == 9 => words[place] = bim::FLOAT,
            // b and c stand behind the kind. A word that is 0 has another fault, and would stay as it is.
            Parameters
                if [2, 3].contains(&(place % 7))
                    && words[place] != 0
                    && [7, 8].contains(&words[place - place % 7 + 1]) =>
            {
                words[place] = 0
            }
            _ => break,
        }
        number = host::check_table(&big_endian(&words), &mut area);
        place = word(&area, 0) as usize;
    }
    if number == bim::TABLE {
        return (table.to_vec(), Option::None);
    }
    let rows = Rows::of(&words);
    let is_date = |row: &[u32; 7]| row[1] == bim::SIMPLE && row[4] >= bim::DATE_TIME;
    let kind_word = rows.types.iter().position(is_date).map(|of_type| 4 + 7 * of_type + 4);
    let refused = match fault {
        OldReceiver => kind_word,
        FormPlainAlone if words[0] == bim::FORM_CASTS => kind_word,
        NoAttributes => {
            let at = rows.attributes.iter().position(|row| is_date(&rows.types[row[2] as usize]));
            at.map(|at| 4 + 7 * rows.types.len() + 3 * at + 2)
        }
        _ => Option::None,
    };
    (big_endian(&words), refused)
}

/// Everything cleared, and the area has this place.
fn refuse(number: u32, place: usize, outputs: [&mut [u8]; 2], area: &mut [u8]) -> u32 {
    outputs.into_iter().for_each(|output| output.fill(0));
    area.fill(0);
    area[..4].copy_from_slice(&(place as u32).to_be_bytes());
    number
}

/// Whether the root is of simple kind 7.
fn is_date_time(table: &[u8], of_type: u32) -> bool {
    let at = 4 + 7 * of_type as usize;
    table.len() >= 4 * (at + 7) && word(table, at + 1) == bim::SIMPLE && word(table, at + 4) == bim::DATE_TIME
}

impl StandIn {
    fn any_write(&self, mode: u32, lent: Writing<'_>) -> u32 {
        let Writing { table, party, root: (name, of_type), events, texts, payload, area } = lent;
        let (table, refused) = mistaken_table(self.0, table);
        if let (Some(place), bim::AREA) = (refused, area.len()) {
            return refuse(bim::TABLE, place, [payload, &mut []], area);
        }
        let mut list = events.to_vec();
        let mut number = host::write(&table, party, name, of_type, mode, &list, texts, payload, area);
        while matches!(number, bim::NO_READING | bim::OUTSIDE_ROW) {
            let at = bim::EVENT * word(area, 0) as usize;
            let Some(event) = list.get_mut(at..at + bim::EVENT).filter(|event| word(event, 0) == bim::KIND_VALUE)
            else {
                break;
            };
            let Some([p, q]) = mistaken(self.0, number, word(event, 1), word(event, 2)) else {
                break;
            };
            if [word(event, 1), word(event, 2)] == [p, q] {
                break;
            }
            event[4..8].copy_from_slice(&p.to_be_bytes());
            event[8..12].copy_from_slice(&q.to_be_bytes());
            number = host::write(&table, party, name, of_type, mode, &list, texts, payload, area);
        }
        match (self.0, number) {
            (NoDateIs18, bim::OUTSIDE_ROW) => {
                let at = bim::EVENT * word(area, 0) as usize;
                if word(&list[at..], 0) == bim::KIND_VALUE && word(&list[at..], 2) != 0 {
                    return bim::NO_READING;
                }
            }
            (RoomBeforeDate, bim::OUTSIDE_ROW) if payload.is_empty() && is_date_time(&table, of_type) => {
                return refuse(bim::PAYLOAD_ROOM, 0, [payload, &mut []], area);
            }
            (WrittenMsFirst, bim::ACCEPTED) if mode == 0 && is_date_time(&table, of_type) && payload.len() >= 9 => {
                payload[1..9].rotate_left(4);
            }
            _ => {}
        }
        number
    }
}

impl Calls for StandIn {
    fn check_table(&self, table: &[u8], area: &mut [u8]) -> u32 {
        let (table, refused) = mistaken_table(self.0, table);
        match (refused, area.len()) {
            (Some(place), bim::AREA) => refuse(bim::TABLE, place, [&mut [], &mut []], area),
            _ => host::check_table(&table, area),
        }
    }

    fn read(&self, lent: Reading<'_>) -> u32 {
        let Reading { table, party, root: (name, of_type), payload, events, texts, area } = lent;
        let (table, refused) = mistaken_table(self.0, table);
        if let (Some(place), bim::AREA) = (refused, area.len()) {
            return refuse(bim::TABLE, place, [events, texts], area);
        }
        let mut given = payload.to_vec();
        if self.0 == MidnightRead && is_date_time(&table, of_type) && payload.get(5..9) == Some(&[0x05, 0x26, 0x5c, 0])
        {
            given[5..9].fill(0);
        }
        let number = host::read(&table, party, name, of_type, &given, events, texts, area);
        let root_is_date_time = is_date_time(&table, of_type);
        match (self.0, number) {
            (_, bim::ACCEPTED) if self.0 != None => {
                let blank = events.len() >= bim::EVENT && word(events, 0) == bim::KIND_BLANK;
                if self.0 == BlankJudged
                    && blank
                    && root_is_date_time
                    && payload[payload.len() - 5..].iter().all(|&byte| byte > 0x0f)
                {
                    return refuse(bim::NO_SUCH_CODE, 8, [events, texts], area);
                }
                each_date(events, |days, ms, bits| misread(self.0, days, ms, bits));
            }
            // The first byte of the milliseconds tells.
            (ClockBeforeEnd, bim::PAST_END) if root_is_date_time && payload[0] == 0x0f && payload.get(5) > Some(&5) => {
                return bim::NO_SUCH_CODE;
            }
            (ClockIs13, bim::NO_SUCH_CODE) if root_is_date_time => return bim::TOO_LARGE,
            (RoomBeforeClock, bim::NO_SUCH_CODE) if root_is_date_time && events.len() < 2 * bim::EVENT => {
                return bim::EVENT_ROOM;
            }
            _ => {}
        }
        number
    }

    fn write(&self, mode: u32, lent: Writing<'_>) -> u32 {
        self.any_write(mode, lent)
    }

    fn write_lengths(&self, lent: Writing<'_>) -> u32 {
        self.any_write(bim::MODE_ALWAYS, lent)
    }

    fn set_held(&self, lent: Setting<'_>) -> u32 {
        let Setting { table, party, of_type, mark, area } = lent;
        host::set_held(table, party, of_type, mark, area)
    }
}

#[test]
fn the_peer_itself_has_no_fault() {
    assert!(run(&StandIn(None), 10_000, 1).report());
}

#[test]
fn every_fault_is_noticed() {
    for &fault in FAULTS {
        assert!(run(&StandIn(fault), 2_500, 1).differing() > 0, "{fault:?}");
    }
}
