//! Instructions of each call, by valgrind's callgrind: they repeat.

use crate::sides::{Buffers, FUNCTIONS, SIDES};
use crate::Item;
use crate::{nanopb, shelves};
use std::fs;
use std::hint::black_box;
use std::process::{Command, Stdio};

/// Callgrind counts every byte of a `rep stosb` as an instruction: libc is told to clear and copy by vectors at any size.
const BY_VECTORS: &str = "glibc.cpu.x86_rep_stosb_threshold=1000000000:glibc.cpu.x86_rep_movsb_threshold=1000000000";

/// Each item, asked of each side once, with a mark behind each.
pub fn make_calls(items: &[Item]) {
    for item in items {
        for side in SIDES {
            let mut buffers = Buffers::of(&item.case);
            black_box(buffers.ask(&item.case, side));
            speed_mark();
        }
    }
}

/// Callgrind writes out its counts, and begins anew, when this is called.
#[no_mangle]
#[inline(never)]
pub extern "C" fn speed_mark() {
    black_box(());
}

/// The instructions between the marks, of which this program makes so many when it is called with these words.
pub fn under_callgrind(words: &[&str], marks: usize) -> Vec<u64> {
    let folder = std::env::temp_dir().join(format!("speed-{}", std::process::id()));
    fs::create_dir_all(&folder).expect("a temporary folder");
    let out = folder.join("out");
    let functions = FUNCTIONS.iter().chain(&shelves::FUNCTIONS).chain(&nanopb::FUNCTIONS);
    let ran = Command::new("valgrind")
        .arg("--tool=callgrind")
        .arg(format!("--callgrind-out-file={}", out.display()))
        .arg("--dump-before=speed_mark")
        .args(functions.map(|name| format!("--toggle-collect={name}")))
        .arg(std::env::current_exe().expect("this program's path"))
        .args(words)
        .env("GLIBC_TUNABLES", BY_VECTORS)
        .env("LD_BIND_NOW", "1")
        .stderr(Stdio::null())
        .status();
    assert!(ran.is_ok_and(|status| status.success()), "valgrind does not run");
    let dump =
        |number: usize| fs::read_to_string(out.with_extension(number.to_string())).expect("a dump for each call");
    let counts = (1..=marks).map(|mark| instructions(&dump(mark))).collect();
    fs::remove_dir_all(&folder).expect("the temporary folder goes");
    counts
}

/// The total of a dump.
fn instructions(dump: &str) -> u64 {
    let total = dump.lines().find_map(|line| line.strip_prefix("totals: "));
    total.and_then(|total| total.trim().parse().ok()).expect("a total in each dump")
}
