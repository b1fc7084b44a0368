//! TheLengths in more groups than they need: told by the list that was read, and made of a payload.

use crate::bim;
use crate::model::{bits5, bits_of, bytes_of, groups};
use crate::reader;

/// Whether every TheLength of a list is shortest: the bits of each Start with one, less the flag's, are those of the shortest vluimsbf5
/// of the sum of the bits between it and its End.
pub fn lengths_are_shortest(mode: u32, list: &[[u32; 4]]) -> bool {
    let flag = usize::from(mode % bim::CASTING == bim::MODE_OPTIONAL);
    let mut bits = 0;
    // Of the open elements: whether a length is coded, the Start's bits, and all bits up to there.
    let mut open = vec![];
    for &[kind, _, coded, of_event] in list {
        bits += of_event as usize;
        match kind {
            bim::KIND_START => open.push((coded, of_event as usize, bits)),
            bim::KIND_END => match open.pop() {
                Some((1, head, before)) if head != flag + 5 * groups((bits - before) as u64) => return false,
                _ => {}
            },
            _ => {}
        }
    }
    true
}

/// The bits of a list's payload with each TheLength in as many groups as `groups_of` says, innermost first; the lengths around one count
/// its bits. The list gets the bits of that payload.
pub fn pad(mode: u32, list: &mut [[u32; 4]], payload: &[bool], mut groups_of: impl FnMut(u64) -> usize) -> Vec<bool> {
    let (mode_byte, mut rest) = payload.split_at(8);
    let mut all = mode_byte.to_vec();
    // The open elements: where the Start stands, and what lies behind its head so far.
    let mut open: Vec<(usize, Vec<bool>)> = vec![];
    for at in 0..list.len() {
        let (item, behind) = rest.split_at(list[at][3] as usize);
        rest = behind;
        let closed = match list[at][0] {
            bim::KIND_START => {
                open.push((at, vec![]));
                continue;
            }
            bim::KIND_END => open.pop(),
            _ => None,
        };
        let around = open.last_mut().map_or(&mut all, |(_, around)| around);
        let Some((start, body)) = closed else {
            around.extend(item);
            continue;
        };
        let coded = list[start][2] == 1;
        let mut head = if mode % bim::CASTING == bim::MODE_OPTIONAL { vec![coded] } else { vec![] };
        if coded {
            let length = body.len() as u64;
            head.extend(bits5(length, groups_of(length)));
        }
        list[start][3] = head.len() as u32;
        around.extend(head);
        around.extend(body);
    }
    all
}

/// The payload with each TheLength in as many groups as `groups_of` says; `None` where this party is refused it.
pub fn padded(
    table: &[u32],
    party: u32,
    root: (u32, u32),
    payload: &[u8],
    groups_of: impl FnMut(u64) -> usize,
) -> Option<Vec<u8>> {
    let mut events = vec![0; bim::EVENT_WORDS * bim::MOST_EVENTS];
    let answer = reader::read(table, party, root.0, root.1, payload, &mut events, &mut [0; bim::MOST_PAYLOAD]);
    let list = &mut events.as_chunks_mut().0[..answer.events];
    let bits: Vec<_> = payload.iter().flat_map(|&byte| bits_of(byte.into(), 8)).collect();
    answer.is_accepted().then(|| bytes_of(&pad(answer.mode, list, &bits, groups_of)))
}
