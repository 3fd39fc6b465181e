//! What the records of calls on planes and slices have in common: 72 bytes of
//! numbers, then both streams.

use crate::calls::Buffers;
use crate::gen::planes::{Made, Rows};
use crate::questions::Settings;

/// Bytes of the DC and the AC stream that a record has room for.
pub const DC: usize = 24;
pub const AC: usize = 200;

/// A plane's part of a record's samples: its stride, where its rows begin, how many samples they have.
#[derive(Clone, Copy, Default)]
pub struct Part {
    pub stride: usize,
    pub at: usize,
    pub len: usize,
}

/// A call's arguments.
#[derive(Clone)]
pub struct Call {
    pub op: u8,
    pub settings: Settings,
    /// A plane's place, or how many planes a slice has.
    pub place: usize,
    pub parts: [Part; 4],
    pub fill: u8,
    /// 0, or which streams are too long to be stored.
    pub long: u8,
}

/// The numbers: arguments, answer, and both positions before and behind the call.
pub fn numbers(out: &mut Vec<u8>, c: &Call, stored: usize, before: &Buffers, number: u32, after: &Buffers) {
    out.extend([c.op, c.fill, number as u8, c.long]);
    let (dc, ac) = if c.long == 0 { (before.dc.len(), before.ac.len()) } else { (0, 0) };
    let short = [c.settings.preset, c.settings.dc_shift as usize, c.place, dc, ac, stored];
    let parts =
        c.parts.iter().map(|p| p.stride).chain(c.parts.iter().map(|p| p.at)).chain(c.parts.iter().map(|p| p.len));
    for n in short.into_iter().chain(parts) {
        out.extend(u16::try_from(n).unwrap().to_le_bytes());
    }
    for at in [before.dc_at, before.ac_at, after.dc_at, after.ac_at] {
        out.extend((at as u64).to_le_bytes());
    }
}

/// Bytes, and zeros up to `room`.
pub fn bytes(out: &mut Vec<u8>, s: &[u8], room: usize) {
    assert!(s.len() <= room);
    out.extend(s);
    out.resize(out.len() + room - s.len(), 0);
}

/// Samples, low byte first.
pub fn stored<T: Made>(rows: &[T]) -> Vec<u8> {
    match T::rows(rows) {
        Rows::Eight(r) => r.to_vec(),
        Rows::Ten(r) => r.iter().flat_map(|x| x.to_le_bytes()).collect(),
    }
}

/// Samples both of whose bytes, or whose one byte, are the same.
pub trait Filled: Made {
    fn filled(b: u8) -> Self;
}

impl Filled for u8 {
    fn filled(b: u8) -> u8 {
        b
    }
}

impl Filled for u16 {
    fn filled(b: u8) -> u16 {
        257 * b as u16
    }
}
