//! The comparison of reports notices what the request's page rules out and warns of: a linear stand-in, right by itself, with one fault at a time.

#[macro_use]
mod common;

use peer::calls::{run_reports, ReportCalls};
use peer::report::{bytes_of, numbers_of};
use peer::{bim, host};

faults! {
    /// A child's bits are given to its parent as well.
    ChildToParent,
    /// Those of a Blank are dropped.
    BlankDropped,
    /// They count as own.
    BlankAsOwn,
    /// They count as the parent's own.
    BlankToParent,
    /// A Blank is not seen.
    BlankUnseen,
    /// A stop is found after some lines were changed.
    StopAfterLines,
    /// Before the lines, but after the totals were changed.
    StopAfterTotals,
    /// Seen is not tested, and wraps.
    SeenWraps,
    /// Only the total is tested.
    OnlyTotalTested,
    /// A count of refused payloads wraps.
    RefusedWraps,
    /// 2^64 - 1 is taken for too much.
    StopsEarly,
    /// A stopped report goes on where the payload fits.
    GoesOn,
    /// It counts refused payloads.
    StoppedCountsRefused,
    /// Only 1 is stopped.
    OnlyOneStops,
    /// Only the low half of the number tells.
    StoppedByLowHalf,
    /// The report is zeroed where it stops.
    StopClears,
    /// Number 0 becomes 2^64 - 1.
    StopsByMost,
    /// An element named like its parent gets a line of its own.
    TwoLinesForParentsName,
    /// Padding of refused payloads counts.
    PaddingOfRefused,
    /// An End does not end ownership.
    EndKeepsOwner,
    /// It ends all.
    EndEndsAll,
    /// Attributes are the parent's.
    AttributeToParent,
    /// The codes are the parent's.
    CastToParent,
    /// They are nobody's.
    CastDropped,
    /// A cast element counts under its type's number.
    CastByType,
    /// The root counts under 0.
    RootUnderZero,
    /// The root is not seen.
    RootUnseen,
    /// Names are compared in 16 bits.
    NamesBy16,
    /// In 32.
    NamesBy32,
    /// A line is free where its name is 0.
    FreeByName,
    /// The name is sought in every line before a free one is taken.
    NameBeforeFree,
    /// The last line of the name counts.
    LastLine,
    /// What stands in a free line is cleared.
    FreeCleared,
    /// A free line keeps its name.
    FreeKeepsName,
    /// Lines past the first free one are never looked at again in one payload.
    FreeFoundOnce,
    /// There are 1,023 lines.
    LineFewer,
    /// There is no *other*.
    NoOther,
    /// *Other* gets a name.
    OtherNamed,
    /// Later events of an element go to the line that its name has then.
    LineSoughtAgain,
    /// The total is of used bits.
    TotalOfUsed,
    /// Padding in bytes.
    PaddingInBytes,
    /// Mode bytes are not counted.
    NoModeBits,
    /// Refused payloads count as accepted.
    RefusedAsAccepted,
    /// They are counted one further on.
    RefusedOneOn,
    /// They are not counted.
    RefusedUncounted,
    /// A larger report is taken.
    LargerTaken,
    /// A report of another size stays as it is.
    SizeKept,
    /// 24 comes after a wrong table.
    SizeAfterTable,
    /// Numbers have the least significant byte first.
    LittleEndian,
    /// Room for 1,024 events.
    FewerEvents,
    /// Room for 4,096 bytes of text.
    LessText,
    /// Party 0 always reads.
    PartyIgnored,
    /// Accepted is answered where the payload is refused.
    AnswersAccepted,
    /// The stop is answered.
    StopAnswered,
}

struct StandIn(Fault);

impl ReportCalls for StandIn {
    fn report_add(&self, table: &[u8], party: u32, root: (u32, u32), payload: &[u8], report: &mut [u8]) -> u32 {
        use Fault::*;
        let fault = self.0;
        let is = |other: Fault| fault == other;
        let whole = report.len() == bim::REPORT || is(LargerTaken) && report.len() > bim::REPORT;
        if !whole && !(is(SizeAfterTable) && host::check_table(table, &mut [0; bim::AREA]) != 0) {
            if !is(SizeKept) {
                report.fill(0);
            }
            return bim::AREA_SIZE;
        }
        if !whole {
            report.fill(0);
            return bim::TABLE;
        }
        let report = &mut report[..bim::REPORT];
        let rooms = (if is(FewerEvents) { 1024 } else { 2048 }, if is(LessText) { 4096 } else { 8192 });
        let (mut events, mut texts, mut area) = (vec![0; 16 * rooms.0], vec![0; rooms.1], [0; bim::AREA]);
        let party = if is(PartyIgnored) { party.min(8) / 8 * 8 } else { party };
        let number = host::read(table, party, root.0, root.1, payload, &mut events, &mut texts, &mut area);
        let answer = if is(AnswersAccepted) { 0 } else { number };
        let numbers = |report: &[u8]| -> Vec<u64> {
            let numbers = numbers_of(report);
            if is(LittleEndian) {
                numbers.into_iter().map(u64::swap_bytes).collect()
            } else {
                numbers
            }
        };
        let before = numbers(report);
        let stopped = match fault {
            OnlyOneStops => before[0] == 1,
            StoppedByLowHalf => before[0] as u32 != 0,
            GoesOn => false,
            StoppedCountsRefused => before[0] != 0 && number == 0,
            _ => before[0] != 0,
        };
        if stopped {
            return answer;
        }
        let mut sums: Vec<u128> = before.iter().map(|&number| number.into()).collect();
        let words: Vec<u128> = [&area[..], &events]
            .concat()
            .chunks_exact(4)
            .map(|word| u32::from_be_bytes(word.try_into().unwrap()).into())
            .collect();
        let (count, used, all) = (words[2] as usize, words[4], 8 * payload.len() as u128);
        match (number, fault) {
            (1.., RefusedAsAccepted) => sums[4] += 1,
            (1.., RefusedOneOn) => sums[5 + number as usize] += 1,
            (1.., RefusedUncounted) => {}
            _ => sums[4 + number as usize] += 1,
        }
        if number != 0 && is(PaddingOfRefused) {
            sums[3] += all % 8 + 1;
        }
        if number == 0 {
            sums[1] += if is(TotalOfUsed) { used } else { all };
            sums[2] += if is(NoModeBits) { 0 } else { 8 };
            sums[3] += if is(PaddingInBytes) { (all - used) / 8 } else { all - used };
            let mut open: Vec<(usize, u128)> = vec![];
            let mut searched = Option::None;
            let list: Vec<_> = words[bim::AREA / 4..].chunks_exact(4).take(count).collect();
            for (index, event) in list.iter().enumerate() {
                let (kind, mut name, bits) = (event[0] as u32, event[1], event[3]);
                if is(CastByType) && kind == bim::KIND_START && list.get(index + 1).is_some_and(|next| next[0] == 8) {
                    name = list[index + 1][1];
                }
                if is(RootUnderZero) && index == 0 {
                    name = 0;
                }
                if [bim::KIND_START, bim::KIND_BLANK].contains(&kind) {
                    let parents = open.iter().any(|&(_, parent)| parent == name);
                    let line = if is(TwoLinesForParentsName) && parents {
                        find(fault, &mut sums, 1 << 40, &mut searched)
                    } else {
                        find(fault, &mut sums, name, &mut searched)
                    };
                    if !(is(RootUnseen) && index == 0 || is(BlankUnseen) && kind == bim::KIND_BLANK) {
                        sums[line + 1] += 1;
                    }
                    match (kind, fault) {
                        (bim::KIND_BLANK, BlankDropped) => {}
                        (bim::KIND_BLANK, BlankAsOwn) => sums[line + 2] += bits,
                        (bim::KIND_BLANK, BlankToParent) => sums[open.last().map_or(line + 3, |top| top.0 + 2)] += bits,
                        (bim::KIND_BLANK, _) => sums[line + 3] += bits,
                        _ => {
                            open.push((line, name));
                            sums[line + 2] += bits;
                        }
                    }
                } else {
                    let depth = open.len();
                    let up = is(AttributeToParent) && kind == bim::KIND_ATTRIBUTE
                        || is(CastToParent) && kind == bim::KIND_CAST;
                    let owner = if up { depth.saturating_sub(2) } else { depth.wrapping_sub(1) };
                    let Some(&(mut line, name)) = open.get(owner) else {
                        continue;
                    };
                    if is(LineSoughtAgain) {
                        line = (0..1024)
                            .map(|line| 72 + 4 * line)
                            .rfind(|&line| sums[line + 1] != 0 && sums[line] == name)
                            .unwrap_or(line);
                    }
                    if !(is(CastDropped) && kind == bim::KIND_CAST) {
                        sums[line + 2] += bits;
                    }
                    match (kind, fault) {
                        (bim::KIND_END, EndKeepsOwner) if depth > 1 => {}
                        (bim::KIND_END, EndEndsAll) if depth > 1 => open.truncate(1),
                        (bim::KIND_END, _) => drop(open.pop()),
                        _ => {}
                    }
                }
                if is(ChildToParent) && open.len() > 1 {
                    sums[open[open.len() - 2].0 + 2] += bits;
                }
            }
        }
        const WALL: u128 = 1 << 64;
        let passes = sums.iter().enumerate().any(|(index, &sum)| {
            let seen = index >= 68 && index % 4 == 1;
            let wall = if is(StopsEarly) && sum != before[index].into() { WALL - 1 } else { WALL };
            let tested = match fault {
                SeenWraps => !seen,
                OnlyTotalTested => index == 1,
                RefusedWraps => !(5..68).contains(&index),
                _ => true,
            };
            tested && sum >= wall
        });
        let mut after: Vec<u64> = sums.iter().map(|&sum| sum as u64).collect();
        if passes {
            let kept = match fault {
                StopAfterLines => 68..after.len(),
                StopAfterTotals => 1..5,
                _ => 0..0,
            };
            let changed = after[kept.clone()].to_vec();
            after = before;
            after[kept].copy_from_slice(&changed);
            if is(StopClears) {
                after.fill(0);
            }
            after[0] = if is(StopsByMost) { u64::MAX } else { 1 };
        }
        if is(LittleEndian) {
            after = after.into_iter().map(u64::swap_bytes).collect();
        }
        report.copy_from_slice(&bytes_of(&after));
        if is(StopAnswered) && passes {
            bim::TOO_LARGE
        } else {
            answer
        }
    }
}

/// The line of a name, sought from the front.
fn find(fault: Fault, sums: &mut [u128], name: u128, searched: &mut Option<usize>) -> usize {
    use Fault::*;
    let is = |other: Fault| fault == other;
    let lines = if is(LineFewer) { 1023 } else { 1024 };
    let places = || (0..lines).map(|line| 72 + 4 * line);
    let free = |sums: &[u128], line: usize| if is(FreeByName) { sums[line] == 0 } else { sums[line + 1] == 0 };
    let named = |sums: &[u128], line: usize| match fault {
        NamesBy16 => sums[line] as u16 == name as u16,
        NamesBy32 => sums[line] as u32 == name as u32,
        _ => sums[line] == name,
    } && !free(sums, line);
    let found = match fault {
        NameBeforeFree => places().find(|&line| named(sums, line)).or(places().find(|&line| free(sums, line))),
        LastLine => places().rfind(|&line| named(sums, line)).or(places().find(|&line| free(sums, line))),
        FreeFoundOnce => {
            let first = *searched.get_or_insert(places().find(|&line| free(sums, line)).unwrap_or(72 + 4 * lines));
            let found = places().find(|&line| line < first && named(sums, line));
            let taken = found.or((first < 72 + 4 * lines).then_some(first));
            if found.is_none() && taken.is_some() {
                *searched = Some(first + 4);
            }
            taken
        }
        _ => places().find(|&line| free(sums, line) || named(sums, line)),
    };
    match found {
        Some(line) => {
            if free(sums, line) || is(FreeFoundOnce) {
                if is(FreeCleared) {
                    sums[line + 2..line + 4].fill(0);
                }
                if !(is(FreeKeepsName) && sums[line] != 0) {
                    sums[line] = name;
                }
            }
            line
        }
        Option::None if is(NoOther) => {
            // Somewhere that is put back: nobody's line.
            sums.len() - 4
        }
        Option::None => {
            if is(OtherNamed) {
                sums[68] = name;
            }
            68
        }
    }
}

#[test]
fn the_stand_in_without_a_fault_is_right() {
    assert_eq!(run_reports(&StandIn(Fault::None), 1_500, 1, false).differing(), 0);
}

#[test]
fn every_fault_is_noticed() {
    let missed: Vec<_> =
        FAULTS.iter().filter(|&&fault| run_reports(&StandIn(fault), 1_200, 2, false).differing() == 0).collect();
    assert!(missed.is_empty(), "not noticed: {missed:?}");
    println!("{} faults, all noticed", FAULTS.len());
}
