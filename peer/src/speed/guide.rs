//! A realistic guide: programmes with titles, synopses, ratings and times, behind optional lengths; and the same with its programmes and
//! titles cast and its synopses substituted, as TV-Anytime has them, every element with its length.

use super::inputs::Input;
use crate::bim;
use crate::list::List;
use crate::rng::Rng;
use crate::rows::{choice, complex, element, occurs, sequence, simple, Casts, Rows};

const GUIDE: u32 = 100;
const SERVICE: u32 = 101;
const PROGRAMME: u32 = 102;
const TITLE: u32 = 110;
const SYNOPSIS: u32 = 111;
const START: u32 = 112;
const MINUTES: u32 = 113;
const RATING: u32 = 114;
const GENRE: u32 = 115;
const KEYWORD: u32 = 116;
const VERSION: u32 = 200;
const LANGUAGE: u32 = 201;
const ID: u32 = 202;
const LIVE: u32 = 203;
const SHORT_SYNOPSIS: u32 = 117;
const LONG_SYNOPSIS: u32 = 118;

// Types of the cast guide, behind those of the other.
const MAIN_TITLE: u32 = 8;
const TITLE_IN_A_LANGUAGE: u32 = 9;
const EPISODE_TITLE: u32 = 10;
const ORIGINAL_TITLE: u32 = 11;
const EPISODE: u32 = 12;

const WORDS: &str = "the harbour news of a ferry captain évening and storm weather northern sea coast lighthouse for children islands \
    Tromsø journey café football live from Bergen series drama in six parts part two history ships music concert with orchestra Århus late";

fn any_word(rng: &mut Rng) -> &'static str {
    let words: Vec<_> = WORDS.split_whitespace().collect();
    rng.pick(&words)
}

fn rows() -> Rows {
    Rows {
        types: vec![
            complex(0, 2, 0),
            complex(2, 2, 4),
            simple(bim::TEXT, 0, 0),
            simple(bim::RANGED, 0, 18),
            simple(bim::UNSIGNED, 0, 0),
            simple(bim::RANGED, 1, 1440),
            simple(bim::ENUMERATION, 64, 0),
            simple(bim::BOOLEAN, 0, 0),
        ],
        attributes: vec![[VERSION, 1, 4], [LANGUAGE, 0, 2], [ID, 1, 4], [LIVE, 0, 7]],
        particles: vec![
            sequence(1, 2),
            element(SERVICE, 2),
            occurs(3, 0, bim::UNBOUNDED),
            element(PROGRAMME, 1),
            sequence(5, 6),
            element(TITLE, 2),
            occurs(11, 0, 1),
            element(START, 4),
            element(MINUTES, 5),
            occurs(12, 0, 1),
            choice(13, 2),
            element(SYNOPSIS, 2),
            element(RATING, 3),
            element(GENRE, 6),
            element(KEYWORD, 2),
        ],
        casts: None,
    }
}

/// The same with derived types of programmes and titles, and substitutes of synopses.
fn cast_rows() -> Rows {
    let mut rows = rows();
    let text = |first, attributes| [1, bim::SIMPLE, first, attributes, bim::TEXT, 0, 0];
    rows.types.extend([text(0, 0), text(1, 1), text(2, 1), text(0, 0), complex(2, 2, 4)]);
    rows.particles[5] = element(TITLE, MAIN_TITLE);
    let (mut of_types, mut of_rows) = (vec![[0, 0]; 13], vec![[0, 0]; 15]);
    (of_types[1], of_types[MAIN_TITLE as usize], of_rows[11]) = ([3, 1], [0, 3], [0, 2]);
    let entries = vec![TITLE_IN_A_LANGUAGE, EPISODE_TITLE, ORIGINAL_TITLE, EPISODE];
    let substitutes = vec![[SHORT_SYNOPSIS, 2], [LONG_SYNOPSIS, TITLE_IN_A_LANGUAGE]];
    rows.casts = Some(Casts { entries, substitutes, of_types, of_rows });
    rows
}

/// The element of a text whose effective type and substitute are these.
fn cast_text(list: &mut List, name: u32, of_type: u32, substitute: u32, text: &str) {
    list.start(name).cast(of_type, substitute);
    match of_type {
        TITLE_IN_A_LANGUAGE => {
            list.attribute(LANGUAGE, Some(2));
            list.texts.extend(b"no");
        }
        EPISODE_TITLE => {
            list.attribute(ID, Some(text.len() as u32));
        }
        _ => {}
    }
    list.text(text).end();
}

/// About `bytes` bytes of words.
fn prose(rng: &mut Rng, bytes: usize) -> String {
    let mut text = any_word(rng).to_string();
    while text.len() < bytes {
        text.push(' ');
        text += any_word(rng);
    }
    text
}

/// A guide of so many programmes.
pub fn guide(programmes: u32) -> Input {
    let list = List::new(bim::MODE_OPTIONAL, |name| [PROGRAMME, SYNOPSIS, RATING].contains(&name));
    Input::new(&format!("guide of {programmes} programmes"), rows(), (GUIDE, 0), filled(list, programmes, false))
}

/// The same with a length for every element.
pub fn guide_with_lengths(programmes: u32) -> Input {
    let list = filled(List::new(bim::MODE_ALWAYS, |_| true), programmes, false);
    Input::new(&format!("guide of {programmes} programmes, every length"), rows(), (GUIDE, 0), list)
}

/// A guide whose programmes, titles and synopses are cast and substituted in every way that there is.
pub fn cast_guide(programmes: u32) -> Input {
    let list = filled(List::new(bim::CASTING + bim::MODE_ALWAYS, |_| true), programmes, true);
    Input::new(&format!("guide of {programmes} programmes, cast"), cast_rows(), (GUIDE, 0), list)
}

fn filled(mut list: List, programmes: u32, cast: bool) -> List {
    let mut rng = Rng::new(50);
    list.start(GUIDE);
    list.attribute(VERSION, Some(17));
    list.attribute(LANGUAGE, None);
    list.text_element(SERVICE, "Ferry One");
    list.times(programmes);
    let mut minute = 29_000_000;
    for id in 0..programmes {
        let minutes = 5 * rng.within(1, 24) as u32;
        list.start(PROGRAMME);
        if cast {
            list.cast(if id % 2 == 0 { 1 } else { EPISODE }, 0);
        }
        list.attribute(ID, Some(4_000 + id));
        list.attribute(LIVE, rng.one_in(2).then(|| rng.below(2) as u32));
        let bytes = rng.within(8, 30);
        let title = prose(&mut rng, bytes);
        if cast {
            cast_text(&mut list, TITLE, MAIN_TITLE + id % 4, 0, &title);
        } else {
            list.text_element(TITLE, &title);
        }
        let told = !rng.one_in(6);
        list.times(u32::from(told));
        if told {
            let bytes = rng.within(40, 120);
            let synopsis = prose(&mut rng, bytes);
            if cast {
                let (of_type, substitute) = [(2, 0), (2, 1), (TITLE_IN_A_LANGUAGE, 2)][id as usize % 3];
                cast_text(&mut list, SYNOPSIS, of_type, substitute, &synopsis);
            } else {
                list.text_element(SYNOPSIS, &synopsis);
            }
        }
        list.simple(START, minute);
        list.simple(MINUTES, minutes);
        let rated = !rng.one_in(3);
        list.times(u32::from(rated));
        if rated {
            list.simple(RATING, rng.below(19) as u32);
        }
        let by_keyword = rng.one_in(5);
        list.pick(u32::from(by_keyword));
        if by_keyword {
            list.text_element(KEYWORD, any_word(&mut rng));
        } else {
            list.simple(GENRE, rng.below(64) as u32);
        }
        list.end();
        minute += minutes;
    }
    list.end();
    list
}
