//! nanopb on the guide of 50 programmes, the same listing: Debian's package, with static allocation. nanopb.c has the calls, and examples/nanopb the
//! messages. Without the feature `nanopb` it is not here, and its rows are skipped.

use crate::counts::speed_mark;
use crate::sides::{Buffers, Side};
use crate::times::in_turn;
use crate::Item;
use peer::bim;
use peer::calls::Call;
use std::hint::black_box;

/// The functions whose instructions count.
pub const FUNCTIONS: [&str; 2] = ["nanopb_decode", "nanopb_encode"];
/// The marks that it makes: behind getting ready, which is no one's instructions, behind the guide decoded, and behind the guide encoded.
pub const MARKS: usize = 3;
/// The guide that it has.
const GUIDE: (&str, usize) = ("guide of 50 programmes", 132);

/// nanopb's guide, decoded, and its bytes.
pub struct Nanopb {
    bytes: Vec<u8>,
    /// What is encoded goes there.
    room: Vec<u8>,
}

impl Nanopb {
    /// nanopb with the guide in it, behind a mark, or none where it is not here.
    pub fn of_guide(items: &[Item]) -> Option<Self> {
        if !cfg!(feature = "nanopb") {
            return None;
        }
        let guide = items.iter().find(|item| Nanopb::has(item) && item.case.call == Call::Read).expect("a guide");
        let mut buffers = Buffers::of(&guide.case);
        assert_eq!(buffers.ask(&guide.case, Side::Judge), bim::ACCEPTED);
        let [events, texts, area] = buffers.outputs() else { panic!("three outputs") };
        assert!(calls::fill(&guide.case.inputs[0], events, texts, area), "the guide does not fit into nanopb's");
        let mut room = vec![0; 2 * bim::MOST_PAYLOAD];
        let encoded = calls::encode(&mut room);
        let mut nanopb = Nanopb { bytes: room[..encoded].to_vec(), room };
        // What it decodes is what was encoded.
        assert_eq!(nanopb.ask(Call::Read), 1);
        assert_eq!(nanopb.ask(Call::Write) as usize, nanopb.bytes.len());
        assert!(nanopb.room.starts_with(&nanopb.bytes));
        speed_mark();
        Some(nanopb)
    }

    /// Whether an item is the guide, read or written.
    pub fn has(item: &Item) -> bool {
        (item.name.as_str(), item.words) == GUIDE
    }

    /// Decodes what is read, encodes what is written.
    pub fn ask(&mut self, call: Call) -> u32 {
        if call == Call::Read {
            calls::decode(&self.bytes)
        } else {
            calls::encode(&mut self.room) as u32
        }
    }

    /// Each of its calls once, with a mark behind each.
    pub fn make_calls(&mut self, items: &[Item]) {
        for item in items.iter().filter(|item| Nanopb::has(item)) {
            black_box(self.ask(item.case.call));
            speed_mark();
        }
    }

    /// Its calls beside the proved ones: `counts` has all sides of each item, `own` its own.
    pub fn measured<'a>(&mut self, items: &'a [Item], counts: &[[u64; 4]], own: &[u64]) -> Vec<Measured<'a>> {
        let guides = items.iter().zip(counts).filter(|(item, _)| Nanopb::has(item));
        let mut measured = vec![];
        for ((item, counts), own) in guides.zip(own) {
            let mut buffers = Buffers::of(&item.case);
            let times = in_turn(|side| match side {
                0 => buffers.ask(&item.case, Side::Proved),
                _ => self.ask(item.case.call),
            });
            measured.push(Measured { item, bytes: self.bytes.len(), times, counts: [counts[0], *own] });
        }
        measured
    }
}

/// The proved call and nanopb's, on the same listing.
pub struct Measured<'a> {
    /// The proved call.
    pub item: &'a Item,
    /// Bytes of nanopb's guide.
    pub bytes: usize,
    /// Nanoseconds.
    pub times: [f64; 2],
    /// Instructions.
    pub counts: [u64; 2],
}

#[cfg(feature = "nanopb")]
mod calls {
    //! SAFETY, of every call below: nanopb.c reads and writes within the lengths that it is given; of an accepted reading's events, texts and area it reads what the
    //! area says. There is one guide, and one thread.

    extern "C" {
        fn nanopb_fill(table: *const u8, events: *const u8, texts: *const u8, area: *const u8) -> i32;
        fn nanopb_encode(bytes: *mut u8, room: usize) -> usize;
        fn nanopb_decode(bytes: *const u8, count: usize) -> i32;
    }

    pub fn fill(table: &[u8], events: &[u8], texts: &[u8], area: &[u8]) -> bool {
        unsafe { nanopb_fill(table.as_ptr(), events.as_ptr(), texts.as_ptr(), area.as_ptr()) == 1 }
    }

    pub fn encode(room: &mut [u8]) -> usize {
        unsafe { nanopb_encode(room.as_mut_ptr(), room.len()) }
    }

    pub fn decode(bytes: &[u8]) -> u32 {
        unsafe { nanopb_decode(bytes.as_ptr(), bytes.len()) as u32 }
    }
}

/// Nobody calls these: no guide is made.
#[cfg(not(feature = "nanopb"))]
mod calls {
    pub fn fill(_: &[u8], _: &[u8], _: &[u8], _: &[u8]) -> bool {
        false
    }

    pub fn encode(_: &mut [u8]) -> usize {
        0
    }

    pub fn decode(_: &[u8]) -> u32 {
        0
    }
}
