//! Private parts of decoder.rs.

use super::*;

pub(crate) fn decode_one_slice<T: Sample + DecodeOut>(
    rows: &mut [&mut [T]],
    strides: &[usize; 4],
    streams: (&[u8], &[u8]),
    matrix: &[u16; 64],
    dc_shift: u32,
) -> Result<(), Error> {
    super::decode_one_slice(rows, strides, streams, matrix, dc_shift)
}
