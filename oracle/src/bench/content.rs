//! What the planes hold that are coded and read.

use crate::calls::Plane;
use crate::gen::planes::Made;
use crate::gen::Rng;
use std::fmt;

#[derive(Clone, Copy)]
pub enum Content {
    /// Slow ramps from left to right and from top to bottom, with noise of a sixty-fourth of the range: at preset 0 small
    /// values in every block, at preset 8 four of five blocks or more are flat, at preset 24 nearly all.
    Smooth,
    /// Ramps; in the right half noise of a quarter of the range over them.
    Mixed,
    /// Noise of the whole range.
    Dense,
}

pub const CONTENTS: [Content; 3] = [Content::Smooth, Content::Mixed, Content::Dense];

impl Content {
    pub fn name(self) -> &'static str {
        match self {
            Content::Smooth => "smooth",
            Content::Mixed => "mixed",
            Content::Dense => "dense",
        }
    }

    pub fn named(name: &str) -> Option<Self> {
        CONTENTS.into_iter().find(|c| c.name() == name)
    }

    /// A plane of it, at place 0.
    pub fn plane<T: Made>(self, stride: usize) -> Plane<T> {
        let mut rng = Rng::new(11);
        let max = T::MAX as usize;
        let lanes: Vec<u16> = (0..16 * stride)
            .map(|i| {
                let (x, y) = (i % stride, i / stride);
                let across = x * max / stride;
                let v = match self {
                    Content::Smooth => across / 2 + y / 4 + rng.below((max + 1) / 64),
                    Content::Mixed if x < stride / 2 => across + 3 * y,
                    Content::Mixed => across + 3 * y + rng.below(max / 4),
                    Content::Dense => rng.below(max + 1),
                };
                (v % (max + 1)) as u16
            })
            .collect();
        (0, stride, lanes.into_iter().map(|v| T::make(&mut rng, v)).collect())
    }
}

impl fmt::Display for Content {
    fn fmt(&self, f: &mut fmt::Formatter) -> fmt::Result {
        f.write_str(self.name())
    }
}
