//! Transforms and quantiser.

use super::{on, Depth, Path};

impl Depth {
    pub(crate) fn published(self) -> crate::dct::Depth {
        match self {
            Depth::Eight => crate::dct::Depth::Eight,
            Depth::Ten => crate::dct::Depth::Ten,
        }
    }
}

/// Forward transform, quantiser and zig-zag of a block; `add` is minus the level.
pub fn fdct_quant_zig(path: Path, rows: &[[i16; 8]; 8], depth: Depth, matrix: &[u16; 192], add: i16) -> [i16; 64] {
    on!(path, S => crate::dct::fdct_quant_zig::<S>(rows, depth.published(), matrix, add))
}

/// Dequantising and inverse transform into 8-bit samples.
pub fn idct8(path: Path, nat: &[i16; 64], matrix: &[u16; 64], dst: &mut [u8], stride: usize, add: i16) {
    on!(path, S => crate::dct::idct8::<S>(nat, matrix, dst, stride, add))
}

/// Dequantising and inverse transform into 16-bit samples.
pub fn idct16(path: Path, nat: &[i16; 64], matrix: &[u16; 64], dst: &mut [u16], stride: usize, add: i16) {
    on!(path, S => crate::dct::idct16::<S>(nat, matrix, dst, stride, add))
}

/// Flat block. The published function takes rows from `dst.chunks_mut(stride)`.
pub fn broadcast_dc8(dc: i16, dst: &mut [u8], stride: usize, add: i16) {
    crate::dct::broadcast_dc8(dc, dst, stride, add)
}

/// Forward transform, quantiser and zig-zag of a row of blocks, their lanes taken as encode_plane takes them; the last
/// block's numbers are kept.
pub fn forward_row<T: super::slice::Sample>(
    path: Path,
    rows: &[T],
    stride: usize,
    depth: Depth,
    matrix: &[u16; 192],
    add: i16,
) -> [i16; 64] {
    let mut last = [0; 64];
    on!(path, S => {
        for x in (0..stride).step_by(8) {
            let mut block = [[0i16; 8]; 8];
            for (k, row) in block.iter_mut().enumerate() {
                let src = &rows[k * stride + x..k * stride + x + 8];
                for (d, s) in row.iter_mut().zip(src) {
                    *d = s.lane();
                }
            }
            last = crate::dct::fdct_quant_zig::<S>(&block, depth.published(), matrix, add);
            std::hint::black_box(&mut last);
        }
    });
    last
}
