//! Planes, slices and previews.

use super::{on, Path};
use crate::bits::{BitReader, BitWriter};
use crate::convert::Planes;
use crate::slice::level_shift;

/// A sample type: `u8` for 8-bit planes, `u16` for 10-bit planes.
#[allow(private_bounds)]
pub trait Sample:
    crate::slice::Sample + crate::slice::DecodeOut + Default + PartialEq + std::fmt::Debug + 'static
{
}
impl Sample for u8 {}
impl Sample for u16 {}

pub fn level<T: Sample>(place: usize) -> i16 {
    level_shift(place, T::DEPTH)
}

/// The DC and the AC stream of one plane.
pub fn encode_plane<T: Sample>(
    path: Path,
    rows: &[T],
    stride: usize,
    place: usize,
    matrix: &[u16; 192],
    dc_shift: u32,
) -> (Vec<u8>, Vec<u8>) {
    let (mut dc, mut ac) = (BitWriter::default(), BitWriter::default());
    on!(path, S => crate::slice::encode_plane::<T, S>(rows, stride, level::<T>(place), matrix, dc_shift, &mut dc, &mut ac));
    (dc.into_bytes(), ac.into_bytes())
}

/// Reads one plane at byte positions; the positions after it, or nothing where
/// it is corrupt (`rows` then holds the blocks before that place).
#[allow(clippy::too_many_arguments)]
pub fn decode_plane<T: Sample>(
    path: Path,
    rows: &mut [T],
    stride: usize,
    place: usize,
    matrix: &[u16; 64],
    dc_shift: u32,
    (dc, dc_at): (&[u8], usize),
    (ac, ac_at): (&[u8], usize),
) -> Option<(usize, usize)> {
    let mut d = BitReader::at(dc, 8 * dc_at);
    let mut a = BitReader::at(ac, 8 * ac_at);
    on!(path, S => crate::slice::decode_plane::<T, S>(rows, stride, level::<T>(place), matrix, dc_shift, &mut d, &mut a)).ok()?;
    Some((d.bit_pos() / 8, a.bit_pos() / 8))
}

/// Reads the preview of one plane; the DC position after it.
pub fn decode_plane_preview(
    out0: &mut [u8],
    out1: &mut [u8],
    stride: usize,
    place: usize,
    dc_shift: u32,
    (dc, dc_at): (&[u8], usize),
) -> Option<usize> {
    let mut d = BitReader::at(dc, 8 * dc_at);
    crate::slice::decode_plane_preview(out0, out1, stride, level::<u8>(place), dc_shift, &mut d).ok()?;
    Some(d.bit_pos() / 8)
}

/// The streams of a slice of `planes` (stride, sixteen rows), by
/// `encode_one_slice` (SSE2 path only).
pub fn encode_one_slice<T: Sample>(
    planes: &[(usize, Vec<T>)],
    matrix: &[u16; 192],
    dc_shift: u32,
) -> (Vec<u8>, Vec<u8>) {
    let mut pl = Planes { data: [vec![], vec![], vec![], vec![]], strides: [8; 4] };
    for (p, (stride, rows)) in planes.iter().enumerate() {
        pl.strides[p] = *stride;
        pl.data[p] = rows.clone();
    }
    crate::encoder::probe::encode_one_slice(&pl, 0, planes.len(), matrix, dc_shift)
}

/// Reads a slice whose streams begin at the given parts, by `decode_one_slice`
/// (SSE2 path only); false where it is corrupt.
pub fn decode_one_slice<T: Sample>(
    planes: &mut [(usize, Vec<T>)],
    dc: &[u8],
    ac: &[u8],
    matrix: &[u16; 64],
    dc_shift: u32,
) -> bool {
    let mut strides = [8; 4];
    for (p, (stride, _)) in planes.iter().enumerate() {
        strides[p] = *stride;
    }
    let mut rows: Vec<&mut [T]> = planes.iter_mut().map(|(_, r)| &mut r[..]).collect();
    crate::decoder::probe::decode_one_slice(&mut rows, &strides, (dc, ac), matrix, dc_shift).is_ok()
}
