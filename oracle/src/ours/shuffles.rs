//! Crate shuffles, by crates/probe/src/of_shuffles.rt.

use reference::api::lanes::{SHUFFLES, V16, V32};

unsafe extern "C" {
    fn probe_shuffles_row(op: u32, a: *const i16, an: usize, imm: u8, out: *mut i16, n: usize);
    fn probe_shuffles_wide(a: *const i32, an: usize, imm: u8, out: *mut i32, n: usize);
    fn probe_shuffles_unpacklo32(a: *const i16, an: usize, b: *const i16, bn: usize, out: *mut i16, n: usize);
    fn probe_shuffles_nonzero_mask(zz: *const i16, n: usize) -> u64;
}

pub fn shuffle(op: &str, a: V16, imm: u8) -> V16 {
    let mut r = [0; 8];
    let op = SHUFFLES.iter().position(|o| *o == op).expect("a shuffle") as u32;
    // SAFETY: arrays of our own, each with its length.
    unsafe { probe_shuffles_row(op, a.as_ptr(), 8, imm, r.as_mut_ptr(), 8) };
    r
}

pub fn shuffle32(a: V32, imm: u8) -> V32 {
    let mut r = [0; 4];
    // SAFETY: arrays of our own, each with its length.
    unsafe { probe_shuffles_wide(a.as_ptr(), 4, imm, r.as_mut_ptr(), 4) };
    r
}

pub fn unpacklo32(a: V16, b: V16) -> V16 {
    let mut r = [0; 8];
    // SAFETY: arrays of our own, each with its length.
    unsafe { probe_shuffles_unpacklo32(a.as_ptr(), 8, b.as_ptr(), 8, r.as_mut_ptr(), 8) };
    r
}

pub fn nonzero_mask(zz: &[i16; 64]) -> u64 {
    // SAFETY: an array of 64.
    unsafe { probe_shuffles_nonzero_mask(zz.as_ptr(), 64) }
}
