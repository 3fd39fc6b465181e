//! A line that shows how far long work is, on a terminal only.

use std::io::{stderr, IsTerminal, Write};
use std::time::{Duration, Instant};

use crate::words::{count, grouped};

pub struct Progress {
    on: bool,
    start: Instant,
    last: Instant,
    drawn: bool,
    frames: usize,
    bytes: usize,
}

impl Progress {
    pub fn new() -> Self {
        let now = Instant::now();
        Progress { on: stderr().is_terminal(), start: now, last: now, drawn: false, frames: 0, bytes: 0 }
    }

    /// One more frame, of so many compressed bytes.
    pub fn frame(&mut self, bytes: usize) {
        self.frames += 1;
        self.bytes += bytes;
        let now = Instant::now();
        if self.on && now - self.last >= Duration::from_millis(200) {
            self.last = now;
            self.drawn = true;
            let rate = self.frames as f64 / (now - self.start).as_secs_f64();
            let done = count(self.frames, "frame");
            let _ = write!(stderr(), "\r{done}, {} kB, {rate:.1} a second ", grouped(self.bytes / 1000));
        }
    }

    /// A line of text, which does not run into the progress line.
    pub fn say(&mut self, line: &str) {
        self.clear();
        let _ = writeln!(stderr(), "{line}");
    }

    /// Takes the line away.
    pub fn clear(&mut self) {
        if self.drawn {
            self.drawn = false;
            let _ = write!(stderr(), "\r{:60}\r", "");
        }
    }
}

impl Drop for Progress {
    fn drop(&mut self) {
        self.clear();
    }
}
