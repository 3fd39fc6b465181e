//! Times beside the Rust's, in one run: the best of several rounds, since other
//! work on the machine only ever adds. Each round goes through all sides in turn,
//! so that a change of the machine's clock meets all of them.

mod blocks;
mod content;
mod frames;
mod planes;
mod processor;
mod work;

pub use work::work;

use content::{Content, CONTENTS};
use std::hint::black_box;
use std::process::ExitCode;
use std::time::{Duration, Instant};

/// How often all rows are gone through, so that a disturbance of a second meets a row once; in each lap, rounds at least, how
/// often a side runs in each of them, and how long a row takes at least.
const LAPS: usize = 5;
const ROUNDS: usize = 15;
const TURNS: usize = 5;
const ROW: Duration = Duration::from_millis(150);
/// Where a block lies on the stack, seen from a plane's rows, moves a time by a tenth, and is another in each run of a program:
/// so each round starts at another depth of the stack, over a page and more.
const DEPTHS: usize = 15;

type Part = (&'static str, fn(&mut Table));

const PARTS: [Part; 5] = [
    ("symbols", blocks::symbols),
    ("blocks", blocks::blocks),
    ("8-bit", |t| planes::calls::<u8>(t, "8-bit")),
    ("10-bit", |t| planes::calls::<u16>(t, "10-bit")),
    ("frames", frames::frames),
];

/// All parts, or those that are named; in them all contents, or those that are named.
pub fn run(words: &[&str]) -> ExitCode {
    let (parts, contents) = (PARTS.map(|p| p.0), CONTENTS.map(Content::name));
    if let Some(word) = words.iter().find(|w| !parts.contains(w) && !contents.contains(w)) {
        eprintln!("bench: {word} is none of {} {}", parts.join(" "), contents.join(" "));
        return ExitCode::FAILURE;
    }
    let wanted = |name: &str, all: &[&str]| words.contains(&name) || !words.iter().any(|w| all.contains(w));
    let contents = CONTENTS.into_iter().filter(|c| wanted(c.name(), &contents)).collect();
    let mut table = Table { contents, lap: 0, frames: Vec::new(), rows: Vec::new() };
    for lap in 0..LAPS {
        table.lap = lap;
        for (name, part) in PARTS {
            if wanted(name, &parts) {
                part(&mut table);
            }
        }
    }
    println!(
        "ns each, best of {} rounds or more of {TURNS} turns; ratio: ours over the column before it",
        LAPS * ROUNDS
    );
    println!("Processor: {}.", processor::processor());
    println!("No buffer is cleared before a turn. The Rust's coding also grows its vectors.\n");
    table.print();
    ExitCode::SUCCESS
}

/// The time of one turn, n steps deeper on the stack.
#[inline(never)]
fn deeper(n: usize, side: &mut dyn FnMut()) -> Duration {
    let step = black_box([0u8; 256]);
    let time = if n > 0 {
        deeper(n - 1, side)
    } else {
        let start = Instant::now();
        side();
        start.elapsed()
    };
    black_box(&step);
    time
}

/// Each row's name and least times: ours, the Rust's and, where it differs, its portable path's.
pub struct Table {
    contents: Vec<Content>,
    lap: usize,
    frames: Vec<frames::Frame>,
    rows: Vec<(String, Vec<f64>)>,
}

impl Table {
    /// One lap of a row: the time of one of `items`.
    fn row(&mut self, name: &str, items: usize, sides: &mut [&mut dyn FnMut()]) {
        let at = self.rows.iter().position(|r| r.0 == name).unwrap_or_else(|| {
            self.rows.push((name.to_string(), vec![f64::MAX; sides.len()]));
            self.rows.len() - 1
        });
        let (mut rounds, begin) = (0, Instant::now());
        while rounds < ROUNDS || begin.elapsed() < ROW {
            rounds += 1;
            for (side, least) in sides.iter_mut().zip(&mut self.rows[at].1) {
                for _ in 0..TURNS {
                    let time = deeper(rounds % DEPTHS, side);
                    *least = least.min(time.as_nanos() as f64 / items as f64);
                }
            }
        }
    }

    fn print(&self) {
        println!("| | ours | SSE2 | ratio | portable | ratio |");
        println!("|---|---|---|---|---|---|");
        for (name, least) in &self.rows {
            let ours = least[0];
            print!("| {name} | {ours:.1}");
            for at in 1..3 {
                match least.get(at) {
                    Some(rust) => print!(" | {rust:.1} | {:.2}", ours / rust),
                    None => print!(" | - | -"),
                }
            }
            println!(" |");
        }
    }
}
