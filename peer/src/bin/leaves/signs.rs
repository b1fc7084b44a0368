//! Widths and signed words, against Rust's own arithmetic where the peer has no function of its own.

use crate::proved;
use peer::codes;
use peer::gen::edge_word;
use peer::rng::Rng;
use peer::tally::Tally;

/// The widths of all small numbers of choices, and of those around every power of 2.
pub fn widths(tally: &mut Tally) {
    let powers = (0..32).flat_map(|power| (0..5).map(move |by| (1_u32 << power).wrapping_add(by).wrapping_sub(2)));
    for choices in (0..70_000).chain(powers).chain([u32::MAX - 1, u32::MAX]) {
        let width = codes::width(u64::from(choices));
        tally.hold("width", 0, proved::width(choices), width, || format!("{choices}"));
    }
}

/// One round: every leaf once.
pub fn round(rng: &mut Rng, tally: &mut Tally) {
    let (b, c) = (edge_word(rng), edge_word(rng));
    let (low, high) = (b as i32, c as i32);
    let shown = || format!("{b} {c}");
    tally.hold("width", 0, proved::width(b), codes::width(u64::from(b)), shown);
    tally.hold("value", 0, proved::value(b), i64::from(low), shown);
    let wide = match rng.below(3) {
        0 => i64::from(low) - i64::from(high),
        1 => rng.step() as i64,
        _ => rng.pick(&[i64::MIN, i64::MAX, -1, 0, 1 << 32, -(1 << 32), (1 << 31) - (1 << 32)]),
    };
    tally.hold("word", 0, proved::word(wide), wide as u32, || format!("{wide}"));
    let gap = (high >= low).then(|| high.abs_diff(low));
    tally.hold("gap", u32::from(gap.is_none()), proved::gap(b, c), gap, shown);
    tally.hold("raised", 0, proved::raised(b, c), b.wrapping_add(c), shown);
    tally.hold("lowered", 0, proved::lowered(b, c), c.wrapping_sub(b), shown);
    tally.hold("magnitude", 0, proved::magnitude(b), (low < 0, low.unsigned_abs()), shown);
    let signed = if c % 2 == 1 { b.wrapping_neg() } else { b };
    tally.hold("with_sign", 0, proved::with_sign(c % 2 == 1, b), signed, shown);
}
