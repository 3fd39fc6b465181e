//! vmx: codes Y4M video as VMX frames and reads it back.

mod args;
mod compare;
mod decode;
mod demo;
mod encode;
mod fail;
mod file;
mod font;
mod fuzz;
mod info;
mod png;
mod preview;
mod progress;
mod random;
mod sheet;
mod source;
mod streams;
mod words;
mod y4m;

use std::process::ExitCode;

use args::{Args, HELP};
use fail::{print, warn, Fail, Outcome};

/// Exit status: all done.
const DONE: u8 = 0;
/// Something failed.
const FAILED: u8 = 1;
/// The command line makes no sense.
const USAGE: u8 = 2;
/// Done, but something was refused, and what was shown before is shown in its place.
const HELD: u8 = 3;

fn main() -> ExitCode {
    let words: Vec<String> = std::env::args().skip(1).collect();
    let status = match run(&words) {
        Ok(Outcome::Done) => DONE,
        Ok(Outcome::Held) => HELD,
        Err(Fail::Usage(message)) => {
            warn(format_args!("vmx: {message}\nTry: vmx --help"));
            USAGE
        }
        Err(Fail::Failed(message)) => {
            warn(format_args!("vmx: {message}"));
            FAILED
        }
        Err(Fail::Closed) => FAILED,
    };
    ExitCode::from(status)
}

fn help() -> Result<Outcome, Fail> {
    print(HELP.trim_end())?;
    Ok(Outcome::Done)
}

fn run(words: &[String]) -> Result<Outcome, Fail> {
    let Some((command, rest)) = words.split_first() else {
        return help();
    };
    if words.iter().any(|w| w == "--help" || w == "-h") || command == "help" {
        return help();
    }
    let run = |options, command: fn(&Args) -> Result<Outcome, Fail>| command(&Args::parse(rest, options)?);
    match command.as_str() {
        "encode" => run(&["--quality", "--dc-shift", "--depth", "--threads"], encode::command),
        "decode" => run(&["--depth", "--threads"], decode::command),
        "preview" => run(&[], preview::command),
        "info" => run(&["--brief"], info::command),
        "source" => run(&["--depth"], source::command),
        "compare" => run(&[], compare::command),
        "demo" => run(&[], demo::command),
        "fuzz" => run(&[], fuzz::command),
        "--version" | "-V" => {
            print(format_args!("vmx {}", env!("CARGO_PKG_VERSION")))?;
            Ok(Outcome::Done)
        }
        other => Err(Fail::Usage(format!("there is no command '{other}'"))),
    }
}
