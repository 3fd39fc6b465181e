//! Runs both sides on the same generated inputs, layer by layer, and compares
//! every answer. The Rust's own two paths are compared as well.

mod bits;
mod built;
mod dct;
mod examples;
mod frames;
mod lanes;
mod limits;
mod lists;
mod planes;
mod tables;

use crate::gen::Rng;
use crate::report::Report;
use std::process::ExitCode;
use std::time::{Duration, Instant};

/// What a layer works with: where it counts, its own source of inputs, and its end.
pub struct Run {
    pub report: Report,
    pub rng: Rng,
    until: Instant,
}

impl Run {
    /// Whether there is time for another round.
    pub fn more(&self) -> bool {
        Instant::now() < self.until
    }
}

type Layer = (&'static str, fn(&mut Run));

const LAYERS: [Layer; 10] = [
    ("examples", examples::run),
    ("tables", tables::run),
    ("lanes", lanes::run),
    ("dct", dct::run),
    ("bits", bits::run),
    ("limits", limits::run),
    ("planes", planes::run),
    ("frames", frames::run),
    ("built", built::run),
    ("lists", lists::run),
];

/// Runs the named layers, or all, within `seconds` in all. Each layer runs its
/// fixed inputs whole; the random ones follow from `seed` and the layer's name.
pub fn run(seconds: u64, seed: u64, names: &[&str]) -> ExitCode {
    for name in names {
        if !LAYERS.iter().any(|(n, _)| n == name) {
            eprintln!("no layer is called {name}: {:?}", LAYERS.map(|(n, _)| n));
            return ExitCode::FAILURE;
        }
    }
    let chosen: Vec<&Layer> = LAYERS.iter().filter(|(n, _)| names.is_empty() || names.contains(n)).collect();
    let mut run = Run { report: Report::new(), rng: Rng::new(seed), until: Instant::now() };
    let start = Instant::now();
    for (i, (name, layer)) in chosen.iter().enumerate() {
        let salt = name.bytes().fold(0u64, |h, b| h.wrapping_mul(31).wrapping_add(b as u64));
        run.rng = Rng::new(seed ^ salt.rotate_left(32));
        // An even share of what is left.
        let left = Duration::from_secs(seconds).saturating_sub(start.elapsed());
        run.until = Instant::now() + left / (chosen.len() - i) as u32;
        layer(&mut run);
    }
    println!("seed {seed}, {:.1} s", start.elapsed().as_secs_f64());
    run.report.print();
    if run.report.failed() == 0 {
        ExitCode::SUCCESS
    } else {
        ExitCode::FAILURE
    }
}
