//! Days and their dates, dates and their days, and dates written: into buffers of junk, with room and without.

use crate::proved::{self, Answer};
use crate::writes;
use peer::bim;
use peer::calendar::{date_of, day_of, Date};
use peer::gen::{any_day, any_ms, damage_date, edge_word};
use peer::rng::Rng;
use peer::tally::Tally;
use peer::value;

/// One round: every leaf once.
pub fn round(rng: &mut Rng, tally: &mut Tally) {
    let days = any_day(rng);
    let date @ Date { year, month, day } = date_of(days);
    let expected = Answer { number: 0, out: [year as u32, month as u32, day as u32, 0] };
    tally.hold("date_of", 0, proved::date_of(days), expected, || format!("{days}"));
    hold_day(tally, [year as u32, month as u32, day as u32]);

    let (word, second) = value::words_of_date(date, any_ms(rng));
    let [word, second] = if rng.one_in(3) { [word, second] } else { damage_date(rng, [word, second]) };
    hold_day(tally, [word >> bim::MONTH_BITS, word & ((1 << bim::MONTH_BITS) - 1), second >> bim::MS_BITS]);
    hold_day(tally, [edge_word(rng), edge_word(rng), edge_word(rng)]);

    let kind = rng.pick(&[bim::DATE_TIME, bim::DATE]);
    let code = value::write(kind, 0, 0, word, second).ok();
    let bits = code.map_or(0, |code| code.width);
    writes::ask(rng, tally, "put_date", &[kind, word, second], code, bits, |buf, at| {
        proved::put_date(buf, at, kind, word, second)
    });
}

/// The day of three words, which may be any.
fn hold_day(tally: &mut Tally, words @ [year, month, day]: [u32; 3]) {
    let date = Date { year: year.into(), month: month.into(), day: day.into() };
    let expected = match day_of(date) {
        Some(days) => Answer { number: 0, out: [days, 0, 0, 0] },
        None => Answer::refused(bim::OUTSIDE_ROW),
    };
    tally.hold("day_of", expected.number, proved::day_of(year, month, day), expected, || format!("{words:?}"));
}
