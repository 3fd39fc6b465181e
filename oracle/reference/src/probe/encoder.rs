//! Private parts of encoder.rs.

use super::*;

pub(crate) fn encode_one_slice<T: Sample>(
    pl: &Planes<T>,
    s: usize,
    nplanes: usize,
    matrix: &[u16; 192],
    dc_shift: u32,
) -> (Vec<u8>, Vec<u8>) {
    super::encode_one_slice(pl, s, nplanes, matrix, dc_shift)
}
