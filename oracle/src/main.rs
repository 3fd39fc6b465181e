//! Compares the Rattle code with the published Rust.

#[cfg(published)]
mod answers;
#[cfg(published)]
mod bench;
#[cfg(published)]
mod calls;
#[cfg(published)]
mod differential;
#[cfg(published)]
mod gen;
#[cfg(published)]
mod ours;
#[cfg(published)]
mod questions;
#[cfg(published)]
mod report;

const USAGE: &str =
    "usage: oracle differential SECONDS SEED [LAYER..] | answers | bench [PART..] [CONTENT..] | work WHO WHAT TIMES";

#[cfg(published)]
fn main() -> std::process::ExitCode {
    let args: Vec<String> = std::env::args().skip(1).collect();
    let words: Vec<&str> = args.iter().map(|s| s.as_str()).collect();
    match words[..] {
        ["differential", seconds, seed, ref layers @ ..] => match (seconds.parse(), seed.parse()) {
            (Ok(seconds), Ok(seed)) => differential::run(seconds, seed, layers),
            _ => usage(),
        },
        ["answers"] => answers::run(),
        ["bench", ref parts @ ..] => bench::run(parts),
        ["work", who, what, times] => match times.parse() {
            Ok(times) => bench::work(who, what, times),
            _ => usage(),
        },
        _ => usage(),
    }
}

#[cfg(published)]
fn usage() -> std::process::ExitCode {
    eprintln!("{USAGE}");
    std::process::ExitCode::FAILURE
}

/// Built without the published sources: nothing to compare with. (Where CI is
/// true the build itself fails.)
#[cfg(not(published))]
fn main() {
    let _ = USAGE;
    println!("skipped: the published Rust sources were not found when the oracle was built");
}
