//! Planes and slices: sixteen rows of `stride` samples.

use crate::ffi;
use crate::refused::{Refused, Verdict};
use crate::sample::Sample;
use crate::streams::{StreamReader, StreamWriter};

/// Lengths that the DC and the AC stream of a plane or slice are at most, in bytes.
#[derive(Clone, Copy, Debug, PartialEq, Eq)]
pub struct Size {
    /// The DC stream's.
    pub dc: usize,
    /// The AC stream's.
    pub ac: usize,
}

/// The room that coding a plane of this stride asks for. Refused: 4.
///
/// ```
/// assert_eq!(vmx::plane_size(8), Ok(vmx::Size { dc: 8, ac: 394 }));
/// ```
pub fn plane_size(stride: usize) -> Result<Size, Refused> {
    ffi::plane_size(stride).map(|(dc, ac)| Size { dc, ac })
}

/// The room that coding a slice of planes with these strides asks for. Refused: 3, 4.
///
/// ```
/// assert_eq!(vmx::slice_size(&[16, 8, 8]), Ok(vmx::Size { dc: 32, ac: 1576 }));
/// assert_eq!(vmx::slice_size(&[]), Err(vmx::Refused::Plane));
/// ```
pub fn slice_size(strides: &[usize]) -> Result<Size, Refused> {
    let at = |p| strides.get(p).copied().unwrap_or(8);
    ffi::slice_size(strides.len(), [at(0), at(1), at(2), at(3)]).map(|(dc, ac)| Size { dc, ac })
}

/// Codes one plane, sixteen rows of `stride` samples, at the streams' positions. Place 0 is luma, 1 and 2 chroma,
/// 3 alpha. Refused: 1 to 7.
///
/// ```
/// use vmx::{encode_plane, plane_size, StreamWriter};
/// let size = plane_size(8)?;
/// let (mut dc, mut ac) = (vec![0; size.dc], vec![0; size.ac]);
/// let (mut dc, mut ac) = (StreamWriter::new(&mut dc), StreamWriter::new(&mut ac));
/// encode_plane(&[128u8; 128], 8, 0, 0, 0, &mut dc, &mut ac)?;
/// assert_eq!((dc.written(), ac.written()), (&[0xF0][..], &[0x80, 0x80][..]));
/// # Ok::<(), vmx::Refused>(())
/// ```
pub fn encode_plane<S: Sample>(
    rows: &[S],
    stride: usize,
    place: usize,
    preset: usize,
    dc_shift: u32,
    dc: &mut StreamWriter,
    ac: &mut StreamWriter,
) -> Verdict {
    ffi::encode_plane(S::ENCODE_PLANE, (rows, stride, place), (preset, dc_shift), dc.lend(), ac.lend())
}

/// Reads one plane into its rows. Samples after sixteen rows stay; a refused call changes none. Refused: 1 to 5, 7, 8.
///
/// ```
/// use vmx::{decode_plane, Refused, StreamReader};
/// let mut rows = [7u8; 128];
/// // a code with 55 zeros in front is bad, wherever it stands
/// let (mut dc, mut ac) = (StreamReader::new(&[0; 7]), StreamReader::new(&[]));
/// assert_eq!(decode_plane(&mut rows, 8, 0, 0, 0, &mut dc, &mut ac), Err(Refused::Code));
/// assert_eq!((rows, dc.pos(), ac.pos()), ([7; 128], 0, 0));
/// // past a stream's end every bit is one
/// let mut dc = StreamReader::new(&[]);
/// decode_plane(&mut rows, 8, 0, 0, 0, &mut dc, &mut ac)?;
/// assert_eq!((rows, dc.pos(), ac.pos()), ([128; 128], 1, 32));
/// # Ok::<(), Refused>(())
/// ```
pub fn decode_plane<S: Sample>(
    rows: &mut [S],
    stride: usize,
    place: usize,
    preset: usize,
    dc_shift: u32,
    dc: &mut StreamReader,
    ac: &mut StreamReader,
) -> Verdict {
    ffi::decode_plane(S::DECODE_PLANE, (rows, stride, place), (preset, dc_shift), dc.lend(), ac.lend())
}

/// A plane of a slice that is coded.
#[derive(Clone, Copy, Debug)]
pub struct Plane<'a, S> {
    /// Sixteen rows or more.
    pub rows: &'a [S],
    /// Samples from one row to the next.
    pub stride: usize,
}

/// A plane of a slice that is read. Two planes cannot share samples, nor a plane with the streams it is read from:
///
/// ```compile_fail,E0499
/// use vmx::PlaneMut;
/// let mut rows = [0u8; 128];
/// let twice = [PlaneMut { rows: &mut rows, stride: 8 }, PlaneMut { rows: &mut rows, stride: 8 }];
/// ```
///
/// ```compile_fail,E0502
/// use vmx::{decode_slice, PlaneMut, StreamReader};
/// let mut rows = [0u8; 128];
/// let (mut dc, mut ac) = (StreamReader::new(&rows), StreamReader::new(&[]));
/// decode_slice(&mut [PlaneMut { rows: &mut rows, stride: 8 }], 0, 0, &mut dc, &mut ac);
/// ```
#[derive(Debug)]
pub struct PlaneMut<'a, S> {
    /// Sixteen rows or more.
    pub rows: &'a mut [S],
    /// Samples from one row to the next.
    pub stride: usize,
}

/// Codes a slice: 1 to 4 planes, in order at the places 0, 1, 2, 3. Refused: 1 to 7.
///
/// ```
/// use vmx::{encode_slice, slice_size, Plane, StreamWriter};
/// let (y, c) = (vec![512u16 << 6; 256], vec![0u16; 128]);
/// let planes = [Plane { rows: &y, stride: 16 }, Plane { rows: &c, stride: 8 }, Plane { rows: &c, stride: 8 }];
/// let size = slice_size(&[16, 8, 8])?;
/// let (mut dc, mut ac) = (vec![0; size.dc], vec![0; size.ac]);
/// let (mut dc, mut ac) = (StreamWriter::new(&mut dc), StreamWriter::new(&mut ac));
/// encode_slice(&planes, 0, 0, &mut dc, &mut ac)?;
/// assert_eq!(dc.written(), [0xFF, 0xF0, 0xF0]);
/// # Ok::<(), vmx::Refused>(())
/// ```
pub fn encode_slice<S: Sample>(
    planes: &[Plane<S>],
    preset: usize,
    dc_shift: u32,
    dc: &mut StreamWriter,
    ac: &mut StreamWriter,
) -> Verdict {
    let at = |p: usize| planes.get(p).map_or((&[][..], 8), |plane| (plane.rows, plane.stride));
    let four = [at(0), at(1), at(2), at(3)];
    ffi::encode_slice(S::ENCODE_SLICE, four, planes.len(), (preset, dc_shift), dc.lend(), ac.lend())
}

/// Reads a slice into its planes. A refused call changes no sample of any of them. Refused: 1 to 5, 7, 8.
pub fn decode_slice<S: Sample>(
    planes: &mut [PlaneMut<S>],
    preset: usize,
    dc_shift: u32,
    dc: &mut StreamReader,
    ac: &mut StreamReader,
) -> Verdict {
    let count = planes.len();
    let mut rest = planes.iter_mut();
    let mut next = || rest.next().map_or((&mut [][..], 8), |plane| (&mut *plane.rows, plane.stride));
    let four = [next(), next(), next(), next()];
    ffi::decode_slice(S::DECODE_SLICE, four, count, (preset, dc_shift), dc.lend(), ac.lend())
}

/// Reads the preview of one plane: one byte a block, two rows of `stride / 8` bytes, from the DC stream alone. It has
/// no depth: a 10-bit plane gives the same kind of bytes. Refused: 2 to 5, 7, 8.
///
/// ```
/// use vmx::{decode_plane_preview, StreamReader};
/// let (mut upper, mut lower) = ([0], [0]);
/// decode_plane_preview(&mut upper, &mut lower, 8, 0, 0, &mut StreamReader::new(&[0xF0]))?;
/// assert_eq!((upper, lower), ([128], [128]));
/// # Ok::<(), vmx::Refused>(())
/// ```
pub fn decode_plane_preview(
    upper: &mut [u8],
    lower: &mut [u8],
    stride: usize,
    place: usize,
    dc_shift: u32,
    dc: &mut StreamReader,
) -> Verdict {
    ffi::preview((upper, lower), stride, place, dc_shift, dc.lend())
}

/// Writes one byte a block in coding order, `stride / 4` of them: 1 where no AC symbol is read for the block, else 0.
/// Refused: 4, 5, 7, 8.
///
/// ```
/// let mut report = [9; 2];
/// vmx::block_report(&mut report, 8, &mut vmx::StreamReader::new(&[0x80, 0x80]))?;
/// assert_eq!(report, [0, 1]); // the run that makes both blocks zero is read for the first of them
/// # Ok::<(), vmx::Refused>(())
/// ```
pub fn block_report(report: &mut [u8], stride: usize, ac: &mut StreamReader) -> Verdict {
    ffi::block_report(report, stride, ac.lend())
}
