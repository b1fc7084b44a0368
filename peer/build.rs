//! Links the proved leaves into `leaves` alone and the proved C calls into `calls`, `speed` and `fuzz` alone: every other target
//! is built without them. `HOST_ARCHIVE` names another archive of the C calls. With the feature `nanopb`, `speed` gets what the Makefile
//! made of examples/nanopb, and Debian's nanopb. `fuzz` gets libFuzzer and blocks.c besides:
//! `FUZZER` and `FUZZ_BLOCKS` name the archive and the object.

/// The crates whose archives are linked (`dev/prove staticlib NAME`), and the one that runs the vectors.
const LEAVES: &str = "test_leaves";
const CALLS: &str = "bim";
const CASES: &str = "test_cases";

fn main() {
    println!("cargo:rerun-if-changed=build.rs");
    println!("cargo:rerun-if-env-changed=HOST_ARCHIVE");
    println!("cargo:rustc-env=CASES_CRATE={CASES}");
    let archive = |name| format!(concat!(env!("CARGO_MANIFEST_DIR"), "/../target/staticlib/lib{}.a"), name);
    if std::env::var_os("CARGO_FEATURE_PROVED").is_some() {
        link("leaves", &archive(LEAVES));
    }
    let calls = std::env::var("HOST_ARCHIVE").unwrap_or(archive(CALLS));
    if std::env::var_os("CARGO_FEATURE_HOST_WRITE").is_some() {
        link("calls", &calls);
        link("speed", &calls);
    }
    if std::env::var_os("CARGO_FEATURE_NANOPB").is_some() {
        link("speed", concat!(env!("CARGO_MANIFEST_DIR"), "/../target/nanopb/libguide.a"));
        println!("cargo:rustc-link-arg-bin=speed=-lprotobuf-nanopb");
    }
    if std::env::var_os("CARGO_FEATURE_FUZZ").is_some() {
        link("fuzz", &calls);
        for name in ["FUZZ_BLOCKS", "FUZZER"] {
            println!("cargo:rerun-if-env-changed={name}");
            link("fuzz", &std::env::var(name).unwrap_or_else(|_| panic!("{name} is not set: make fuzz sets it")));
        }
        println!("cargo:rustc-link-arg-bin=fuzz=-lstdc++");
    }
}

fn link(target: &str, archive: &str) {
    println!("cargo:rerun-if-changed={archive}");
    println!("cargo:rustc-link-arg-bin={target}={archive}");
}
