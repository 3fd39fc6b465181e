//! Blocks and planes.

use super::{lane, row, Rng, EXTREMES};

/// Eight rows of lanes for the forward transform: any, or samples of a depth.
pub fn rows(rng: &mut Rng, max: u16) -> [[i16; 8]; 8] {
    match rng.below(10) {
        0 => core::array::from_fn(|_| row(rng)),
        // Rows of one number, or columns of one number: the sums of a pass reach their extremes.
        1 => core::array::from_fn(|_| [lane(rng); 8]),
        2 => {
            let r = row(rng);
            let signs = rng.next();
            core::array::from_fn(|y| r.map(|x| if (signs >> y) & 1 == 0 { x } else { x.wrapping_neg() }))
        }
        3 => {
            let limit = 1 << rng.between(1, 15);
            core::array::from_fn(|_| core::array::from_fn(|_| (rng.below(2 * limit) as i32 - limit as i32) as i16))
        }
        // A basis function of any height: one coefficient is large, and a pass saturates at its place.
        4 | 5 => {
            let (a, b) = (height(rng), height(rng));
            let b = if rng.once_in(2) { a.wrapping_neg() } else { b };
            let (u, v) = if rng.once_in(2) { (0, rng.below(8)) } else { (rng.below(8), rng.below(8)) };
            core::array::from_fn(|y| core::array::from_fn(|x| if basis(u, v, x, y) { a } else { b }))
        }
        _ => {
            let p = plane(rng, 8, max);
            core::array::from_fn(|y| core::array::from_fn(|x| p[8 * y + x] as i16))
        }
    }
}

/// A number of any size: all bit lengths equally often.
fn height(rng: &mut Rng) -> i16 {
    let bits = rng.between(1, 15);
    let v = rng.below(1 << bits) as i16;
    if rng.once_in(2) {
        v
    } else {
        !v
    }
}

/// A block of coefficients for the inverse transform.
pub fn coefficients(rng: &mut Rng) -> [i16; 64] {
    match rng.below(6) {
        0 => core::array::from_fn(|_| rng.i16()),
        1 => core::array::from_fn(|_| rng.pick(&EXTREMES)),
        2 => {
            let limit = 1 << rng.between(1, 12);
            core::array::from_fn(|_| rng.below(2 * limit) as i16 - limit as i16)
        }
        3 => {
            let mut b = [0; 64];
            b[0] = lane(rng);
            b
        }
        _ => {
            let mut b = [0; 64];
            for _ in 0..rng.between(1, 12) {
                b[rng.below(64)] = lane(rng);
            }
            b
        }
    }
}

/// The sign of a basis function of the transform.
fn basis(u: usize, v: usize, x: usize, y: usize) -> bool {
    let c = |k: usize, n: usize| ((2 * n + 1) as f64 * k as f64 * std::f64::consts::PI / 16.0).cos();
    c(u, x) * c(v, y) >= 0.0
}

/// Sixteen rows of lane values from 0 to `max`.
pub fn plane(rng: &mut Rng, stride: usize, max: u16) -> Vec<u16> {
    let m = max as usize;
    let any = |rng: &mut Rng| rng.below(m + 1) as u16;
    let mut p = vec![0u16; 16 * stride];
    match rng.below(11) {
        0 => p.iter_mut().for_each(|s| *s = any(rng)),
        1 => p.iter_mut().for_each(|s| *s = if rng.once_in(2) { 0 } else { max }),
        2 => {
            let v = match rng.below(3) {
                0 => 0,
                1 => max,
                _ => any(rng),
            };
            p.fill(v);
        }
        3 => {
            let (a, b, c) = (rng.below(9) as i32 - 4, rng.below(9) as i32 - 4, any(rng) as i32);
            fill(&mut p, stride, |x, y| (a * x as i32 + b * y as i32 + c).clamp(0, m as i32) as u16);
        }
        4 => {
            let (u, v) = (rng.below(8), rng.below(8));
            let (low, high) = (any(rng), any(rng));
            let full = rng.once_in(2);
            fill(&mut p, stride, |x, y| match (basis(u, v, x % 8, y % 8), full) {
                (true, true) => max,
                (false, true) => 0,
                (true, false) => high,
                (false, false) => low,
            });
        }
        5 => {
            let v = rng.below(m) as u16;
            fill(&mut p, stride, |x, y| v + ((x + y) % 2) as u16);
        }
        6 => fill(&mut p, stride, |x, y| if (x / 8 + y / 8) % 2 == 0 { 0 } else { max }),
        7 | 8 => {
            let values: Vec<u16> = (0..stride / 4).map(|_| any(rng)).collect();
            fill(&mut p, stride, |x, y| values[(y / 8) * (stride / 8) + x / 8]);
        }
        9 => {
            let base = any(rng) as i32;
            p.iter_mut().for_each(|s| *s = (base + rng.below(9) as i32 - 4).clamp(0, m as i32) as u16);
        }
        _ => {
            // Flat blocks with a few samples changed: long runs between values.
            p.fill(any(rng));
            for _ in 0..rng.between(1, 4) {
                let at = rng.below(16 * stride);
                p[at] = any(rng);
            }
        }
    }
    p
}

fn fill(p: &mut [u16], stride: usize, f: impl Fn(usize, usize) -> u16) {
    for (i, s) in p.iter_mut().enumerate() {
        *s = f(i % stride, i / stride);
    }
}

/// The samples of a plane.
pub enum Rows<'a> {
    Eight(&'a [u8]),
    Ten(&'a [u16]),
}

/// A sample type, and how a plane of it is made from lane values.
pub trait Made: reference::api::slice::Sample + Copy {
    const MAX: u16;
    fn make(rng: &mut Rng, lane: u16) -> Self;
    fn any(rng: &mut Rng) -> Self;
    /// The samples by their depth.
    fn rows(rows: &[Self]) -> Rows<'_>;
}

impl Made for u8 {
    const MAX: u16 = 255;
    fn make(_: &mut Rng, lane: u16) -> u8 {
        lane as u8
    }
    fn any(rng: &mut Rng) -> u8 {
        rng.next() as u8
    }
    fn rows(rows: &[u8]) -> Rows<'_> {
        Rows::Eight(rows)
    }
}

impl Made for u16 {
    const MAX: u16 = 1023;
    /// The low six bits are not part of the lane.
    fn make(rng: &mut Rng, lane: u16) -> u16 {
        (lane << 6) | (rng.next() as u16 & 63)
    }
    fn any(rng: &mut Rng) -> u16 {
        rng.next() as u16
    }
    fn rows(rows: &[u16]) -> Rows<'_> {
        Rows::Ten(rows)
    }
}

pub fn samples<T: Made>(rng: &mut Rng, stride: usize) -> Vec<T> {
    let p = plane(rng, stride, T::MAX);
    p.into_iter().map(|v| T::make(rng, v)).collect()
}

/// A stride: mostly small, seldom the largest.
pub fn stride(rng: &mut Rng) -> usize {
    match rng.below(400) {
        0 => 7680,
        1..=3 => 8 * rng.between(1, 240),
        4..=150 => 8,
        151..=250 => 16,
        _ => 8 * rng.between(1, 12),
    }
}
