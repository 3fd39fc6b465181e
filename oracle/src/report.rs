//! Counts of equal and different answers by kind, and the smallest input found
//! for each kind that shows a difference.

use std::fmt::Debug;

pub struct Report {
    kinds: Vec<Counts>,
}

struct Counts {
    name: String,
    passed: u64,
    failed: u64,
    smallest: Option<(usize, String)>,
}

/// A kind of comparison, by its place in the report.
#[derive(Clone, Copy)]
pub struct Kind(usize);

impl Report {
    pub fn new() -> Self {
        Report { kinds: Vec::new() }
    }

    pub fn kind(&mut self, name: impl Into<String>) -> Kind {
        let name = name.into();
        if let Some(k) = self.kinds.iter().position(|c| c.name == name) {
            return Kind(k);
        }
        self.kinds.push(Counts { name, passed: 0, failed: 0, smallest: None });
        Kind(self.kinds.len() - 1)
    }

    /// Counts one comparison. `size` orders inputs; `text` describes a failing one.
    #[inline]
    pub fn check(&mut self, kind: Kind, equal: bool, size: usize, text: impl FnOnce() -> String) {
        let c = &mut self.kinds[kind.0];
        if equal {
            c.passed += 1;
            return;
        }
        c.failed += 1;
        if c.smallest.as_ref().is_none_or(|(s, _)| size < *s) {
            c.smallest = Some((size, text()));
        }
    }

    /// Counts one comparison of `count` things at once.
    #[inline]
    pub fn many(&mut self, kind: Kind, equal: bool, count: u64, size: usize, text: impl FnOnce() -> String) {
        self.check(kind, equal, size, text);
        if equal {
            self.kinds[kind.0].passed += count - 1;
        }
    }

    /// Compares two answers to one input.
    #[inline]
    pub fn same<A: PartialEq + Debug>(
        &mut self,
        kind: Kind,
        found: &A,
        wanted: &A,
        size: usize,
        input: impl FnOnce() -> String,
    ) {
        self.check(kind, found == wanted, size, || {
            format!("{}\n      found  {}\n      wanted {}", input(), short(found), short(wanted))
        });
    }

    pub fn passed(&self) -> u64 {
        self.kinds.iter().map(|c| c.passed).sum()
    }

    pub fn failed(&self) -> u64 {
        self.kinds.iter().map(|c| c.failed).sum()
    }

    pub fn print(&self) {
        for c in &self.kinds {
            println!("{:>12} equal {:>6} different  {}", c.passed, c.failed, c.name);
            if let Some((_, text)) = &c.smallest {
                println!("    smallest input found: {text}");
            }
        }
        println!("{} passed, {} failed", self.passed(), self.failed());
    }
}

/// A value's text, cut where it is too long to read.
fn short(a: &impl Debug) -> String {
    let mut text = format!("{a:?}");
    if text.len() > 1500 {
        text.truncate(1500);
        text += " ..";
    }
    text
}
