//! What the programs have in common.

use std::process::ExitCode;

/// The arguments `[count] [seed]`; `None` where they are others.
pub fn count_and_seed(words: impl Iterator<Item = String>, count: u64) -> Option<(u64, u64)> {
    let numbers: Vec<u64> = words.map(|word| word.parse().ok()).collect::<Option<_>>()?;
    match numbers[..] {
        [] => Some((count, 1)),
        [count] => Some((count, 1)),
        [count, seed] => Some((count, seed)),
        _ => None,
    }
}

/// Success where all is well.
pub fn status(good: bool) -> ExitCode {
    if good {
        ExitCode::SUCCESS
    } else {
        ExitCode::FAILURE
    }
}

/// How a program is called, and failure.
pub fn usage(words: &str) -> ExitCode {
    eprintln!("{words}");
    ExitCode::FAILURE
}
