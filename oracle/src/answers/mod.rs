//! Writes the stored answers of the Rust that the program `replays` compares
//! ours with, where no Rust is at hand. ANSWERS.md describes the records.

mod bits;
mod built;
mod dct;
mod frames;
mod lanes;
mod layouts;
mod limits;
mod planes;
mod reads;
mod record;
mod shown;
mod starts;
mod streams;
mod tables;

use crate::gen::Rng;
use std::path::PathBuf;
use std::process::ExitCode;

/// The seed of the stored answers.
const SEED: u64 = 1;

/// A part's name, and its records with their count.
type List = (&'static str, fn(&mut Rng) -> (Vec<u8>, usize));

/// In the program's order.
const LISTS: [List; 11] = [
    ("bits", bits::list),
    ("dct", dct::list),
    ("lanes", lanes::list),
    ("tables", tables::list),
    ("built", built::list),
    ("frames", frames::list),
    ("layouts", layouts::list),
    ("limits", limits::list),
    ("planes", planes::list),
    ("reads", reads::list),
    ("shown", shown::list),
];

/// Writes each list to crates/replays/data, and crates/replays/stdout.
pub fn run() -> ExitCode {
    let replays = PathBuf::from(env!("CARGO_MANIFEST_DIR")).join("../crates/replays");
    let mut stdout = String::new();
    for (name, list) in LISTS {
        let (bytes, count) = list(&mut Rng::new(SEED));
        if !wrote(replays.join("data").join(name), &bytes) {
            return ExitCode::FAILURE;
        }
        println!("{name}: {count} records, {} bytes", bytes.len());
        stdout += &format!("{name}: {count} equal, 0 different\n");
    }
    if wrote(replays.join("stdout"), stdout.as_bytes()) {
        ExitCode::SUCCESS
    } else {
        ExitCode::FAILURE
    }
}

/// Writes a file; where that fails, says why.
fn wrote(file: PathBuf, bytes: &[u8]) -> bool {
    std::fs::write(&file, bytes).inspect_err(|e| eprintln!("{}: {e}", file.display())).is_ok()
}
