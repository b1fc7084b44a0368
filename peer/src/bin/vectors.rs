//! `vectors` writes anew what is computed under examples/: the answers' events, texts and payloads, the codes' answers, the
//! listings, the example tables and payloads; and, made of codes and payloads, the input and output of the proved program that
//! runs the vectors. `vectors --check` tells what of it would change.

use peer::bim;
use peer::code_cases::{code_case, payload_case};
use peer::guide;
use peer::listing::listing;
use peer::speed::guide_files;
use peer::vectors::{again, renewed, vectors_of};
use std::collections::BTreeSet;
use std::path::{Path, PathBuf};
use std::process::ExitCode;
use std::{fs, io};

const FILES: [&str; 7] =
    ["codes.txt", "tables.txt", "payloads.txt", "lists.txt", "settings.txt", "messages.txt", "shelves.txt"];
/// Numbers that no vector shows: 24 is the C boundary's, and 27 is no call's.
const NOT_SHOWN: [u32; 2] = [bim::AREA_SIZE, 27];

fn main() -> ExitCode {
    let words: Vec<_> = std::env::args().skip(1).collect();
    let done = match words.iter().map(String::as_str).collect::<Vec<_>>()[..] {
        [] => write_all().map(|()| vec![]),
        ["--check"] => check_all(),
        _ => Err(io::Error::other("vectors [--check]")),
    };
    match done {
        Ok(faults) if faults.is_empty() => ExitCode::SUCCESS,
        Ok(faults) => {
            faults.iter().for_each(|fault| println!("FAILED: {fault}"));
            ExitCode::FAILURE
        }
        Err(error) => {
            eprintln!("{error}");
            ExitCode::FAILURE
        }
    }
}

fn examples(name: &str) -> PathBuf {
    Path::new(env!("CARGO_MANIFEST_DIR")).join("../examples").join(name)
}

fn write_all() -> io::Result<()> {
    for file in FILES {
        let text = fs::read_to_string(examples(file))?;
        fs::write(examples(file), renewed(&text).map_err(|fault| io::Error::other(format!("{file}: {fault}")))?)?;
    }
    for (path, bytes) in made()? {
        fs::write(path, bytes)?;
    }
    Ok(())
}

fn check_all() -> io::Result<Vec<String>> {
    let mut faults = vec![];
    let needed = (0..=bim::ADVANCED_FLAG).filter(|number| !NOT_SHOWN.contains(number));
    let mut missing: BTreeSet<u32> = needed.collect();
    for file in FILES {
        let text = fs::read_to_string(examples(file))?;
        println!("{file}: {} vectors", vectors_of(&text).count());
        for vector in vectors_of(&text) {
            let name = vector.lines().next().unwrap_or_default();
            match again(vector) {
                None => faults.push(format!("{file}: not understood: {name}")),
                Some(now) if now != *vector => faults.push(format!("{file}: {name}\n{now}")),
                Some(_) => {}
            }
            let number = vector.lines().find_map(|line| line.strip_prefix("answer ")?.split(' ').next()?.parse().ok());
            number.map(|number| missing.remove(&number));
        }
    }
    faults.extend(missing.iter().map(|number| format!("no vector shows {number}")));
    for (path, bytes) in made()? {
        if fs::read(&path)? != bytes {
            faults.push(format!("{}: not what vectors would write", path.display()));
        }
    }
    Ok(faults)
}

/// What is made of the vectors and beside them: files and their bytes.
fn made() -> io::Result<Vec<(PathBuf, Vec<u8>)>> {
    let mut files = vec![];
    let text = |name| fs::read_to_string(examples(name));
    let (codes, payloads) = (text("codes.txt")?, text("payloads.txt")?);
    let mut cases: Vec<_> = vectors_of(&codes).filter_map(code_case).collect();
    cases.extend(vectors_of(&payloads).filter_map(payload_case));
    let lines: String = cases.iter().map(|case| format!("{}\n", case.line)).collect();
    let input: Vec<_> = cases.into_iter().flat_map(|case| case.input).collect();
    let program = env!("CASES_CRATE");
    println!("crates/{program}: {} bytes in, {} lines out", input.len(), lines.lines().count());
    let folder = Path::new(env!("CARGO_MANIFEST_DIR")).join("../crates").join(program);
    files.push((folder.join("stdin"), input));
    files.push((folder.join("stdout"), lines.into_bytes()));

    let mut inputs: Vec<PathBuf> =
        fs::read_dir(examples("listing"))?.map(|entry| Ok(entry?.path())).collect::<io::Result<_>>()?;
    inputs.retain(|path| path.extension().is_some_and(|end| end == "bin"));
    println!("listing: {} inputs", inputs.len());
    for input in inputs {
        files.push((input.with_extension("out"), listing(&fs::read(&input)?).into_bytes()));
    }

    let mut guide = guide::files();
    guide.extend(guide_files());
    println!("guide, worked, nanopb: {} files", guide.len());
    files.extend(guide.into_iter().map(|(name, bytes)| (examples(name), bytes)));
    Ok(files)
}
