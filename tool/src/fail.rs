//! How a command ends.

use std::fmt::Display;
use std::io::{self, Write};

/// A command that went through.
#[derive(Clone, Copy, Debug, PartialEq, Eq)]
pub enum Outcome {
    /// All done.
    Done,
    /// Done, but something was refused and what was shown before is shown in its place.
    Held,
}

/// A command that did not.
#[derive(Debug)]
pub enum Fail {
    /// The command line makes no sense.
    Usage(String),
    /// Something failed on the way.
    Failed(String),
    /// Who read our output has gone; there is nobody to tell.
    Closed,
}

impl From<String> for Fail {
    fn from(message: String) -> Self {
        Fail::Failed(message)
    }
}

/// Names what an error of the system is about.
pub fn about<T>(what: impl Display, result: io::Result<T>) -> Result<T, Fail> {
    result.map_err(|e| match e.kind() {
        io::ErrorKind::BrokenPipe => Fail::Closed,
        _ => Fail::Failed(format!("{what}: {e}")),
    })
}

/// Prints a line, or several.
pub fn print(text: impl Display) -> Result<(), Fail> {
    about("standard output", writeln!(io::stdout(), "{text}"))
}

/// Says something beside the output; if nobody listens, so be it.
pub fn warn(text: impl Display) {
    let _ = writeln!(io::stderr(), "{text}");
}
