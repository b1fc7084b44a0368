//! Writes the named cases, those of ../examples, as first inputs of the fuzzer: `seeds FOLDER`.

use std::process::ExitCode;

fn main() -> ExitCode {
    let Some(folder) = std::env::args().nth(1) else {
        eprintln!("seeds FOLDER");
        return ExitCode::FAILURE;
    };
    let seeds = [peer::calls::seeds(), peer::calls::message_seeds(), peer::calls::shelves::seeds()].concat();
    for (index, seed) in seeds.iter().enumerate() {
        if let Err(error) = std::fs::write(format!("{folder}/named-{index:03}"), seed) {
            eprintln!("{folder}: {error}");
            return ExitCode::FAILURE;
        }
    }
    println!("{} named cases are the first inputs", seeds.len());
    ExitCode::SUCCESS
}
