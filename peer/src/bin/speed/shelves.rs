//! Shelves: the proved calls against what no reader or writer of a shelf can do without, memcpy and a plain sum over the same bytes.

use crate::counts::speed_mark;
use crate::proved::Library;
use crate::times::in_turn;
use peer::calls::{ShelfCalls, ShelfCase};
use peer::shelf::laws::Call;
use peer::shelf::{file, record};
use std::hint::black_box;

/// Who is asked: the proved call, then the plain pass.
pub const SIDES: usize = 2;
/// The functions whose instructions count.
pub const FUNCTIONS: [&str; 3] = ["bim_shelf_write", "bim_shelf_read", "shelf_plain"];
/// What the proved calls should not pass: so many times the plain pass.
const GOAL: f64 = 1.5;

/// A shelf to be written or read.
pub struct Shelf {
    name: String,
    case: ShelfCase,
    /// The bytes of its stream.
    stream: usize,
}

/// Small payloads, those of a guide, and the largest; in a shelf of few blocks and of many.
pub fn items() -> Vec<Shelf> {
    let shelves = [(5, 400), (2000, 60), (2000, 400), (100, 8192), (20_000, 400)];
    let mut items = vec![];
    for (records, bytes) in shelves {
        let payload: Vec<u8> = (0..bytes).map(|at| (at * 7 + 1) as u8).collect();
        let stream = record(10, 0, &payload).repeat(records);
        let name = format!("{records} records of {bytes} bytes");
        let made = file::write(&stream).map(|(file, _)| file).unwrap_or_else(|_| panic!("{name}: refused"));
        for (call, given) in [(Call::Write, stream.clone()), (Call::Read, made)] {
            let mut case = ShelfCase::new(call, given);
            if call == Call::Read {
                case.rooms[0] = stream.len();
            }
            items.push(Shelf { name: name.clone(), case, stream: stream.len() });
        }
    }
    items
}

impl Shelf {
    fn buffers(&self) -> Vec<Vec<u8>> {
        self.case.rooms.iter().map(|&room| vec![0xdd; room]).collect()
    }

    #[inline(always)]
    fn ask(&self, side: usize, outputs: &mut [Vec<u8>]) -> u32 {
        let [made, area] = outputs else {
            return 0;
        };
        match (side, self.case.call) {
            (0, Call::Write) => Library::default().shelf_write(&self.case.given, made, area),
            (0, _) => Library::default().shelf_read(&self.case.given, made, area),
            _ => shelf_plain(&self.case.given[..self.stream], &mut made[..self.stream]),
        }
    }

    /// The proved call answers as the judge does, byte for byte.
    pub fn check(&self) {
        let (mut outputs, judged) = (self.buffers(), self.case.judged());
        assert_eq!(self.ask(0, &mut outputs), judged.number);
        assert!(outputs == judged.outputs, "{}: other bytes than the judge's", self.name);
    }

    /// Nanoseconds of each side.
    pub fn medians(&self) -> [f64; SIDES] {
        let mut outputs = self.buffers();
        in_turn(|side| self.ask(side, &mut outputs))
    }
}

/// Each asked of each side once, with a mark behind each.
pub fn make_calls(items: &[Shelf]) {
    for item in items {
        for side in 0..SIDES {
            let mut outputs = item.buffers();
            black_box(item.ask(side, &mut outputs));
            speed_mark();
        }
    }
}

/// Copies the bytes, and adds up their words as a block's sum does.
#[no_mangle]
#[inline(never)]
fn shelf_plain(given: &[u8], made: &mut [u8]) -> u32 {
    made.copy_from_slice(given);
    given.as_chunks::<4>().0.iter().fold(0, |sum: u32, word| sum.wrapping_add(u32::from_be_bytes(*word)))
}

/// Prints the page's part for shelves; false where a call is over the goal.
pub fn print(items: &[Shelf], times: &[[f64; SIDES]], counts: &[[u64; SIDES]]) -> bool {
    println!("\n## Shelves: the proved calls against memcpy and a plain sum\n");
    println!("The plain pass copies as many bytes as the stream has (memcpy), and adds up their words (which the compiler does 16 bytes at a time).");
    println!("A shelf has 14 bytes more in every block of 512, its last block is summed whole, and its records are followed. The goal is {GOAL} times the plain pass's time.\n");
    println!(
        "| shelf | bytes of the stream | call | proved ns | plain ns | ratio | proved instr. | plain instr. | ratio |"
    );
    println!("|---|---|---|---|---|---|---|---|---|");
    let mut over = 0;
    for ((item, times), counts) in items.iter().zip(times).zip(counts) {
        let ratio = times[0] / times[1];
        over += usize::from(ratio > GOAL);
        println!(
            "| {} | {} | {} | {:.0} | {:.0} | {ratio:.2} | {} | {} | {:.2} |",
            item.name,
            item.stream,
            if item.case.call == Call::Write { "write" } else { "read" },
            times[0],
            times[1],
            counts[0],
            counts[1],
            counts[0] as f64 / counts[1] as f64
        );
    }
    println!("\n{over} of {} over the goal.", items.len());
    over == 0
}
