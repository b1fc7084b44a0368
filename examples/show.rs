//! What show.c does, by the shared library: rustc -O --edition 2021 -L FOLDER_OF_LIBBIM show.rs, then show TABLE PAYLOAD.
use std::process::ExitCode;

// As bim.h has them.
const AREA: usize = 152;
const EVENT: usize = 16;
const MOST_EVENTS: usize = 2048;
const MOST_PAYLOAD: usize = 8192;
const ACCEPTED: u32 = 0;
const BLANK: u32 = 7;
const CAST: u32 = 8;

#[link(name = "bim")]
extern "C" {
    fn bim_read(
        table: *const u8,
        table_bytes: usize,
        party: u32,
        root_name: u32,
        root_type: u32,
        payload: *const u8,
        payload_bytes: usize,
        events: *mut u8,
        events_bytes: usize,
        texts: *mut u8,
        texts_bytes: usize,
        area: *mut u8,
        area_bytes: usize,
    ) -> u32;
}

/// What a payload says: its events, four words each, and its texts.
struct Reading {
    events: Vec<[u32; 4]>,
    texts: Vec<u8>,
}

fn word(bytes: &[u8], i: usize) -> u32 {
    u32::from_be_bytes([bytes[4 * i], bytes[4 * i + 1], bytes[4 * i + 2], bytes[4 * i + 3]])
}

/// The reading, or the number and the place of the refusal.
fn read(table: &[u8], party: u32, root_name: u32, root_type: u32, payload: &[u8]) -> Result<Reading, (u32, u32)> {
    let (mut events, mut texts, mut area) = (vec![0; MOST_EVENTS * EVENT], vec![0; MOST_PAYLOAD], [0; AREA]);
    // Every buffer is lent with its own length, and the call keeps none of them.
    let number = unsafe {
        bim_read(
            table.as_ptr(),
            table.len(),
            party,
            root_name,
            root_type,
            payload.as_ptr(),
            payload.len(),
            events.as_mut_ptr(),
            events.len(),
            texts.as_mut_ptr(),
            texts.len(),
            area.as_mut_ptr(),
            area.len(),
        )
    };
    if number != ACCEPTED {
        return Err((number, word(&area, 0)));
    }
    let count = word(&area, 2) as usize;
    texts.truncate(word(&area, 3) as usize);
    Ok(Reading {
        events: events.chunks(EVENT).take(count).map(|event| [0, 1, 2, 3].map(|i| word(event, i))).collect(),
        texts,
    })
}

fn main() -> std::io::Result<ExitCode> {
    let arguments: Vec<_> = std::env::args_os().skip(1).collect();
    let [table, payload] = &arguments[..] else {
        eprintln!("usage: show TABLE PAYLOAD");
        return Ok(ExitCode::from(2));
    };
    // Party 0; root: element 10 of type 0.
    let reading = match read(&std::fs::read(table)?, 0, 10, 0, &std::fs::read(payload)?) {
        Ok(reading) => reading,
        Err((number, place)) => {
            println!("refused {number} at {place}");
            return Ok(ExitCode::FAILURE);
        }
    };
    println!("{} events, {} bytes of text", reading.events.len(), reading.texts.len());
    for (i, &[kind, p, q, _]) in reading.events.iter().enumerate() {
        if kind == BLANK {
            println!("element {p} was stepped over: type {q} is not held");
        } else if kind == CAST {
            println!("element {} has type {p} here", reading.events[i - 1][1]);
        }
    }
    Ok(ExitCode::SUCCESS)
}
