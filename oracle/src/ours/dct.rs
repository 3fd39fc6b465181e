//! Crates dct, quant, idct and paint, by crates/probe/src/of_dct.rt; rows of blocks by blocks.rt.

use reference::api::Depth;

#[rustfmt::skip]
unsafe extern "C" {
    fn probe_dct_forward(rows: *const i16, rn: usize, add: i16, ten: bool, preset: usize, out: *mut i16, n: usize);
    fn probe_dct_inverse8(nat: *const i16, nn: usize, preset: usize, level: i16, rows: *mut u8, n: usize, stride: usize);
    fn probe_dct_inverse16(nat: *const i16, nn: usize, preset: usize, level: i16, rows: *mut u16, n: usize, stride: usize);
    fn probe_blocks_forward8(rows: *const u8, n: usize, stride: usize, preset: usize, out: *mut i16, m: usize);
    fn probe_blocks_forward16(rows: *const u16, n: usize, stride: usize, preset: usize, out: *mut i16, m: usize);
    fn probe_blocks_inverse8(nat: *const i16, m: usize, preset: usize, rows: *mut u8, n: usize, stride: usize);
    fn probe_blocks_inverse16(nat: *const i16, m: usize, preset: usize, rows: *mut u16, n: usize, stride: usize);
    fn probe_dct_flat(dc: i16, level: i16, rows: *mut u8, n: usize, stride: usize);
}

/// Forward transform, quantiser and scan of a block.
pub fn forward(rows: &[[i16; 8]; 8], depth: Depth, preset: usize, add: i16) -> [i16; 64] {
    let mut out = [0; 64];
    let p = rows.as_flattened().as_ptr();
    // SAFETY: 64 numbers, eight rows of eight one after the other, and an array of 64 of our own.
    unsafe { probe_dct_forward(p, 64, add, depth == Depth::Ten, preset, out.as_mut_ptr(), 64) };
    out
}

/// Dequantising and inverse transform, into rows from the block's corner on.
pub fn inverse8(nat: &[i16; 64], preset: usize, level: i16, rows: &mut [u8], stride: usize) {
    // SAFETY: an array of 64 and rows with their own length, which do not overlap.
    unsafe { probe_dct_inverse8(nat.as_ptr(), 64, preset, level, rows.as_mut_ptr(), rows.len(), stride) }
}

pub fn inverse16(nat: &[i16; 64], preset: usize, level: i16, rows: &mut [u16], stride: usize) {
    // SAFETY: an array of 64 and rows with their own length, which do not overlap.
    unsafe { probe_dct_inverse16(nat.as_ptr(), 64, preset, level, rows.as_mut_ptr(), rows.len(), stride) }
}

/// A flat block.
pub fn flat(dc: i16, level: i16, rows: &mut [u8], stride: usize) {
    // SAFETY: rows with their own length.
    unsafe { probe_dct_flat(dc, level, rows.as_mut_ptr(), rows.len(), stride) }
}

/// A row of blocks, for timing; the last block's numbers are kept.
pub fn forward_row8(rows: &[u8], stride: usize, preset: usize, out: &mut [i16; 64]) {
    // SAFETY: rows with their own length and an array of 64, which do not overlap.
    unsafe { probe_blocks_forward8(rows.as_ptr(), rows.len(), stride, preset, out.as_mut_ptr(), 64) }
}

pub fn forward_row16(rows: &[u16], stride: usize, preset: usize, out: &mut [i16; 64]) {
    // SAFETY: rows with their own length and an array of 64, which do not overlap.
    unsafe { probe_blocks_forward16(rows.as_ptr(), rows.len(), stride, preset, out.as_mut_ptr(), 64) }
}

/// One block of coefficients over a row of blocks, for timing.
pub fn inverse_row8(nat: &[i16; 64], preset: usize, rows: &mut [u8], stride: usize) {
    // SAFETY: an array of 64 and rows with their own length, which do not overlap.
    unsafe { probe_blocks_inverse8(nat.as_ptr(), 64, preset, rows.as_mut_ptr(), rows.len(), stride) }
}

pub fn inverse_row16(nat: &[i16; 64], preset: usize, rows: &mut [u16], stride: usize) {
    // SAFETY: an array of 64 and rows with their own length, which do not overlap.
    unsafe { probe_blocks_inverse16(nat.as_ptr(), 64, preset, rows.as_mut_ptr(), rows.len(), stride) }
}
