//! The example guide under examples/guide: one table, with its rating type held, not held, and held by one of two parties; and programmes as
//! payloads.

use crate::bim;
use crate::cases;
use crate::list::List;
use crate::model::groups;
use crate::padding::padded;
use crate::rows::{choice, complex, element, occurs, sequence, simple, Rows, NOTHING};
use crate::words::big_endian;

/// Names of elements and attributes; examples/guide/names.txt has their words.
mod name {
    pub const PROGRAMME: u32 = 10;
    pub const TITLE: u32 = 11;
    pub const SYNOPSIS: u32 = 12;
    pub const RATING: u32 = 13;
    pub const SHOWING: u32 = 14;
    pub const LIVE: u32 = 15;
    pub const RECORDED: u32 = 16;
    pub const BEGINS: u32 = 17;
    pub const MINUTES: u32 = 18;
    pub const SUBTITLES: u32 = 19;
    pub const SATELLITE: u32 = 20;
    pub const ID: u32 = 30;
    pub const LANGUAGE: u32 = 31;
    pub const SCHEME: u32 = 32;
    pub const ZONE: u32 = 33;
}

/// The row of the rating's type.
const RATING_TYPE: usize = 3;

/// The root of every programme.
const ROOT: (u32, u32) = (name::PROGRAMME, 0);

/// The guide's table, the rating's type held by party 0 or not.
fn guide_table(rating_held: bool) -> Vec<u32> {
    marked_table(1, rating_held.into())
}

/// The guide's table with these held marks, of the rating's type and of all others.
fn marked_table(others: u32, rating: u32) -> Vec<u32> {
    let mut rows = Rows {
        types: vec![
            complex(0, 2, 0),                           // 0 programme
            simple(bim::TEXT, 0, 0),                    // 1 title
            [1, bim::SIMPLE, 1, 1, bim::TEXT, 0, 0],    // 2 synopsis, with a language
            [1, bim::SIMPLE, 2, 1, bim::RANGED, 0, 21], // 3 rating: an age, with a scheme
            complex(3, 1, 11),                          // 4 showing
            simple(bim::UNSIGNED, 0, 0),                // 5 seconds since 1970, and identifiers
            simple(bim::RANGED, 1, 1440),               // 6 minutes of a day
            simple(bim::BOOLEAN, 0, 0),                 // 7
            simple(bim::ENUMERATION, 32, 0),            // 8 language
            simple(bim::ENUMERATION, 5, 0),             // 9 rating scheme
            NOTHING,                                    // 10 live
            simple(bim::RANGED, 1900, 2155),            // 11 a year
            simple(bim::SIGNED, 0, 0),                  // 12 minutes from universal time
            simple(bim::FLOAT, 0, 0),                   // 13 degrees east
        ],
        attributes: vec![[name::ID, 1, 5], [name::LANGUAGE, 0, 8], [name::SCHEME, 1, 9], [name::ZONE, 0, 12]],
        particles: vec![
            sequence(1, 5),               // 0 of a programme: rows 1 to 5
            element(name::TITLE, 1),      // 1
            occurs(6, 0, 1),              // 2 perhaps a synopsis
            occurs(7, 0, 1),              // 3 perhaps a rating
            occurs(8, 1, bim::UNBOUNDED), // 4 one showing or more
            choice(9, 2),                 // 5 live or recorded
            element(name::SYNOPSIS, 2),   // 6
            element(name::RATING, 3),     // 7
            element(name::SHOWING, 4),    // 8
            element(name::LIVE, 10),      // 9
            element(name::RECORDED, 11),  // 10
            sequence(12, 4),              // 11 of a showing: rows 12 to 15
            element(name::BEGINS, 5),     // 12
            element(name::MINUTES, 6),    // 13
            element(name::SUBTITLES, 7),  // 14
            occurs(16, 0, 3),             // 15 up to three satellites
            element(name::SATELLITE, 13), // 16
        ],
        casts: None,
    };
    rows.types.iter_mut().for_each(|row| row[0] = others);
    rows.types[RATING_TYPE][0] = rating;
    rows.words()
}

fn showing(list: &mut List, zone: Option<i32>, begins: u32, minutes: u32, subtitles: bool, east: &[f32]) {
    list.start(name::SHOWING).attribute(name::ZONE, zone.map(|zone| zone as u32));
    list.simple(name::BEGINS, begins).simple(name::MINUTES, minutes).simple(name::SUBTITLES, subtitles.into());
    list.times(east.len() as u32);
    for degrees in east {
        list.simple(name::SATELLITE, degrees.to_bits());
    }
    list.end();
}

/// The payload; the table holds every type.
fn payload(list: &List) -> Vec<u8> {
    list.payload(&guide_table(true), ROOT).unwrap_or_else(|number| panic!("refused {number}"))
}

/// A film from 16 on.
fn film(mode: u32) -> Vec<u8> {
    let mut list = List::new(mode, |_| false);
    list.start(name::PROGRAMME).attribute(name::ID, Some(4711)).attribute(name::LANGUAGE, Some(4));
    list.text_element(name::TITLE, "Harbour Lights");
    list.times(1).start(name::SYNOPSIS).attribute(name::LANGUAGE, None).text("A pilot boat puts out – too late.").end();
    list.times(1).start(name::RATING).attribute(name::SCHEME, Some(1)).value(16).end();
    list.times(2);
    showing(&mut list, Some(-60), 1_794_772_800, 95, true, &[19.2, -0.8]);
    showing(&mut list, None, 1_794_859_200, 95, false, &[]);
    list.pick(1).simple(name::RECORDED, 1998).end();
    payload(&list)
}

/// News without a synopsis, for everybody; of its elements only the rating has a length.
fn news() -> Vec<u8> {
    let mut list = List::new(bim::MODE_OPTIONAL, |name| name == name::RATING);
    list.start(name::PROGRAMME).attribute(name::ID, Some(4712)).attribute(name::LANGUAGE, None);
    list.text_element(name::TITLE, "News \"at sea\"");
    list.times(0);
    list.times(1).start(name::RATING).attribute(name::SCHEME, Some(0)).value(0).end();
    list.times(1);
    showing(&mut list, Some(120), 1_794_778_800, 15, true, &[19.2]);
    list.pick(0).start(name::LIVE).end().end();
    payload(&list)
}

/// The files under examples/, by name, with their bytes.
pub fn files() -> Vec<(&'static str, Vec<u8>)> {
    let film_always = film(bim::MODE_ALWAYS);
    let cut = film_always[..60].to_vec();
    let mut damaged = film_always.clone();
    // The title's first letter: FF is in no UTF-8.
    damaged[8] = 0xff;
    let mut control = film_always.clone();
    // The space in the title becomes a bell.
    control[15] = 0x07;
    // As a head end writes it that leaves two groups for a length and fills them later.
    let film_padded =
        padded(&guide_table(true), 0, ROOT, &film_always, |length| groups(length).max(2)).unwrap_or_default();
    vec![
        ("worked/worked.table", big_endian(&cases::worked().table)),
        ("worked/worked.bim", cases::worked().payload.clone()),
        ("guide/held.table", big_endian(&guide_table(true))),
        ("guide/not-held.table", big_endian(&guide_table(false))),
        // Party 0 shows the guide, party 1 is the family lock, which alone holds the rating's type.
        ("guide/parties.table", big_endian(&marked_table(0b11, 0b10))),
        ("guide/film.bim", film_always),
        ("guide/film-padded.bim", film_padded),
        ("guide/film-no-lengths.bim", film(bim::MODE_NEVER)),
        ("guide/news.bim", news()),
        ("guide/film-cut.bim", cut),
        ("guide/film-damaged.bim", damaged),
        ("guide/film-control.bim", control),
    ]
}
