//! The calls of include/vmx.h, and the only unsafe code of this crate.
//!
//! Each function here passes Rust's slices and references on as pointers with counts. That is safe for any arguments:
//! the calls are proved for all of them, a slice's pointer is never null and has so many elements, and what is lent
//! with `&mut` overlaps nothing else that is lent in the same call.

use crate::refused::{Refused, Verdict};

type Byte = *const u8;
type ByteMut = *mut u8;
type At = *mut usize;

pub type EncodePlane<S> =
    unsafe extern "C" fn(*const S, usize, usize, usize, usize, u32, ByteMut, usize, At, ByteMut, usize, At) -> u32;
pub type DecodePlane<S> =
    unsafe extern "C" fn(*mut S, usize, usize, usize, usize, u32, Byte, usize, At, Byte, usize, At) -> u32;
#[rustfmt::skip]
pub type EncodeSlice<S> = unsafe extern "C" fn(
    *const S, usize, usize, *const S, usize, usize, *const S, usize, usize, *const S, usize, usize,
    usize, usize, u32, ByteMut, usize, At, ByteMut, usize, At,
) -> u32;
#[rustfmt::skip]
pub type DecodeSlice<S> = unsafe extern "C" fn(
    *mut S, usize, usize, *mut S, usize, usize, *mut S, usize, usize, *mut S, usize, usize,
    usize, usize, u32, Byte, usize, At, Byte, usize, At,
) -> u32;

#[rustfmt::skip]
extern "C" {
    fn vmx_layout(width: usize, height: usize, aligned_height: At, slices: At, luma: At, chroma: At, max_dc_len: At,
        max_ac_len: At) -> u32;
    fn vmx_interlace_capable(width: usize, height: usize, capable: *mut u32) -> u32;
    fn vmx_image_row(width: usize, height: usize, r: usize, interlaced: u32, there: *mut u32, row: At) -> u32;
    fn vmx_preview_size(width: usize, height: usize, interlaced: u32, preview_width: At, preview_height: At) -> u32;
    fn vmx_quality_preset(quality: u8, kept: ByteMut, preset: At);
    fn vmx_streams(width: usize, height: usize, frame: Byte, frame_len: usize, views: *mut u32, views_len: usize,
        interlaced: *mut u32, quality: *mut u32, dc_shift: *mut u32, header_len: At, ac: *mut u32) -> u32;
    #[cfg(test)]
    fn vmx_stream(width: usize, height: usize, frame: Byte, frame_len: usize, ac: u32, slice: usize, offset: At,
        len: At) -> u32;
    fn vmx_frame_start(width: usize, height: usize, interlaced: u32, quality: u8, dc_shift: u32, out: ByteMut,
        out_len: usize, ac_turn: *mut u32, next: At, at: At) -> u32;
    fn vmx_frame_put(width: usize, height: usize, ac: u32, slice: usize, stream: Byte, stream_len: usize, out: ByteMut,
        out_len: usize, ac_turn: *mut u32, next: At, at: At) -> u32;
    fn vmx_frame_complete(width: usize, height: usize, ac_turn: u32, next: usize, complete: *mut u32) -> u32;
    fn vmx_shown_rows(new_len: usize, held_len: usize, stride: usize, slice: usize, verdict: u32, from_new: *mut u32,
        offset: At, len: At) -> u32;
    fn vmx_shown_time(new_time: u64, held_time: u64, verdict: u32) -> u64;

    pub fn vmx_encode_plane8(rows: *const u8, rows_len: usize, stride: usize, place: usize, preset: usize, shift: u32,
        dc: ByteMut, dc_len: usize, dc_at: At, ac: ByteMut, ac_len: usize, ac_at: At) -> u32;
    pub fn vmx_encode_plane10(rows: *const u16, rows_len: usize, stride: usize, place: usize, preset: usize,
        shift: u32, dc: ByteMut, dc_len: usize, dc_at: At, ac: ByteMut, ac_len: usize, ac_at: At) -> u32;
    pub fn vmx_decode_plane8(rows: *mut u8, rows_len: usize, stride: usize, place: usize, preset: usize, shift: u32,
        dc: Byte, dc_len: usize, dc_at: At, ac: Byte, ac_len: usize, ac_at: At) -> u32;
    pub fn vmx_decode_plane10(rows: *mut u16, rows_len: usize, stride: usize, place: usize, preset: usize, shift: u32,
        dc: Byte, dc_len: usize, dc_at: At, ac: Byte, ac_len: usize, ac_at: At) -> u32;
    pub fn vmx_encode_slice8(p0: *const u8, p0_len: usize, stride0: usize, p1: *const u8, p1_len: usize,
        stride1: usize, p2: *const u8, p2_len: usize, stride2: usize, p3: *const u8, p3_len: usize, stride3: usize,
        count: usize, preset: usize, shift: u32, dc: ByteMut, dc_len: usize, dc_at: At, ac: ByteMut, ac_len: usize,
        ac_at: At) -> u32;
    pub fn vmx_encode_slice10(p0: *const u16, p0_len: usize, stride0: usize, p1: *const u16, p1_len: usize,
        stride1: usize, p2: *const u16, p2_len: usize, stride2: usize, p3: *const u16, p3_len: usize, stride3: usize,
        count: usize, preset: usize, shift: u32, dc: ByteMut, dc_len: usize, dc_at: At, ac: ByteMut, ac_len: usize,
        ac_at: At) -> u32;
    pub fn vmx_decode_slice8(p0: *mut u8, p0_len: usize, stride0: usize, p1: *mut u8, p1_len: usize, stride1: usize,
        p2: *mut u8, p2_len: usize, stride2: usize, p3: *mut u8, p3_len: usize, stride3: usize, count: usize,
        preset: usize, shift: u32, dc: Byte, dc_len: usize, dc_at: At, ac: Byte, ac_len: usize, ac_at: At) -> u32;
    pub fn vmx_decode_slice10(p0: *mut u16, p0_len: usize, stride0: usize, p1: *mut u16, p1_len: usize,
        stride1: usize, p2: *mut u16, p2_len: usize, stride2: usize, p3: *mut u16, p3_len: usize, stride3: usize,
        count: usize, preset: usize, shift: u32, dc: Byte, dc_len: usize, dc_at: At, ac: Byte, ac_len: usize,
        ac_at: At) -> u32;
    fn vmx_preview(shift: u32, place: usize, stride: usize, upper: ByteMut, upper_len: usize, lower: ByteMut,
        lower_len: usize, dc: Byte, dc_len: usize, dc_at: At) -> u32;
    fn vmx_block_report(stride: usize, report: ByteMut, report_len: usize, ac: Byte, ac_len: usize, ac_at: At) -> u32;
    fn vmx_plane_size(stride: usize, dc_len: At, ac_len: At) -> u32;
    fn vmx_slice_size(count: usize, stride0: usize, stride1: usize, stride2: usize, stride3: usize, dc_len: At,
        ac_len: At) -> u32;
}

/// A number as a verdict: 0, or that of one of document 01's questions.
fn verdict(number: u32) -> Verdict {
    match Refused::from_number(number) {
        Some(refused) => Err(refused),
        None => {
            assert!(number == 0, "libvmx.a answered {number}, which this crate does not know");
            Ok(())
        }
    }
}

/// A verdict as a number.
fn number(verdict: Verdict) -> u32 {
    verdict.map_or_else(Refused::number, |()| 0)
}

#[derive(Default)]
pub struct Geometry {
    pub aligned_height: usize,
    pub slices: usize,
    pub luma: usize,
    pub chroma: usize,
    pub max_dc_len: usize,
    pub max_ac_len: usize,
}

pub fn layout(width: usize, height: usize) -> Result<Geometry, Refused> {
    let mut g = Geometry::default();
    // SAFETY: six places of our own.
    verdict(unsafe {
        vmx_layout(
            width,
            height,
            &mut g.aligned_height,
            &mut g.slices,
            &mut g.luma,
            &mut g.chroma,
            &mut g.max_dc_len,
            &mut g.max_ac_len,
        )
    })?;
    Ok(g)
}

pub fn interlace_capable(width: usize, height: usize) -> Result<bool, Refused> {
    let mut capable = 0;
    // SAFETY: one place of our own.
    verdict(unsafe { vmx_interlace_capable(width, height, &mut capable) })?;
    Ok(capable != 0)
}

pub fn image_row(width: usize, height: usize, r: usize, interlaced: bool) -> Result<Option<usize>, Refused> {
    let (mut there, mut row) = (0, 0);
    // SAFETY: two places of our own.
    verdict(unsafe { vmx_image_row(width, height, r, interlaced.into(), &mut there, &mut row) })?;
    Ok((there != 0).then_some(row))
}

pub fn preview_size(width: usize, height: usize, interlaced: bool) -> Result<(usize, usize), Refused> {
    let (mut w, mut h) = (0, 0);
    // SAFETY: two places of our own.
    verdict(unsafe { vmx_preview_size(width, height, interlaced.into(), &mut w, &mut h) })?;
    Ok((w, h))
}

pub fn quality_preset(quality: u8) -> (u8, usize) {
    let (mut kept, mut preset) = (0, 0);
    // SAFETY: two places of our own.
    unsafe { vmx_quality_preset(quality, &mut kept, &mut preset) };
    (kept, preset)
}

#[derive(Default)]
pub struct Header {
    pub interlaced: u32,
    pub quality: u32,
    pub dc_shift: u32,
    pub header_len: usize,
    pub ac: u32,
}

/// The header, and offset and length of each stream in `views`: DC streams first, then AC streams.
pub fn streams(width: usize, height: usize, frame: &[u8], views: &mut [u32]) -> Result<Header, Refused> {
    let mut h = Header::default();
    // SAFETY: the frame and the views are slices, the places are our own.
    verdict(unsafe {
        vmx_streams(
            width,
            height,
            frame.as_ptr(),
            frame.len(),
            views.as_mut_ptr(),
            views.len(),
            &mut h.interlaced,
            &mut h.quality,
            &mut h.dc_shift,
            &mut h.header_len,
            &mut h.ac,
        )
    })?;
    Ok(h)
}

#[cfg(test)]
pub fn stream(width: usize, height: usize, frame: &[u8], ac: bool, slice: usize) -> Result<(usize, usize), Refused> {
    let (mut offset, mut len) = (0, 0);
    // SAFETY: the frame is a slice, the places are our own.
    verdict(unsafe {
        vmx_stream(width, height, frame.as_ptr(), frame.len(), ac.into(), slice, &mut offset, &mut len)
    })?;
    Ok((offset, len))
}

/// A builder's state: the size of its frame, whose turn it is and where the next byte goes. Only the calls make and move it.
#[derive(Clone, Copy, Debug)]
pub struct Build {
    width: usize,
    height: usize,
    ac_turn: u32,
    next: usize,
    at: usize,
}

impl Build {
    /// Where the next byte goes.
    pub fn at(&self) -> usize {
        self.at
    }
}

pub fn frame_start(
    (width, height): (usize, usize),
    interlaced: bool,
    quality: u8,
    dc_shift: u32,
    out: &mut [u8],
    at: usize,
) -> Result<Build, Refused> {
    let mut b = Build { width, height, ac_turn: 0, next: 0, at };
    // SAFETY: the buffer is a slice, the places are our own.
    verdict(unsafe {
        vmx_frame_start(
            width,
            height,
            interlaced.into(),
            quality,
            dc_shift,
            out.as_mut_ptr(),
            out.len(),
            &mut b.ac_turn,
            &mut b.next,
            &mut b.at,
        )
    })?;
    Ok(b)
}

pub fn frame_put(b: &mut Build, ac: bool, slice: usize, stream: &[u8], out: &mut [u8]) -> Verdict {
    // SAFETY: stream and buffer are slices that do not overlap, the places are three fields of one struct.
    verdict(unsafe {
        vmx_frame_put(
            b.width,
            b.height,
            ac.into(),
            slice,
            stream.as_ptr(),
            stream.len(),
            out.as_mut_ptr(),
            out.len(),
            &mut b.ac_turn,
            &mut b.next,
            &mut b.at,
        )
    })
}

pub fn frame_complete(b: &Build) -> Result<bool, Refused> {
    let mut complete = 0;
    // SAFETY: a place of our own.
    verdict(unsafe { vmx_frame_complete(b.width, b.height, b.ac_turn, b.next, &mut complete) })?;
    Ok(complete != 0)
}

/// Whether the rows lie in the new picture, and their offset and length.
pub fn shown_rows(
    new_len: usize,
    held_len: usize,
    stride: usize,
    slice: usize,
    judged: Verdict,
) -> Result<(bool, usize, usize), Refused> {
    let (mut from_new, mut offset, mut len) = (0, 0, 0);
    // SAFETY: three places of our own.
    verdict(unsafe {
        vmx_shown_rows(new_len, held_len, stride, slice, number(judged), &mut from_new, &mut offset, &mut len)
    })?;
    Ok((from_new != 0, offset, len))
}

pub fn shown_time(new_time: u64, held_time: u64, judged: Verdict) -> u64 {
    // SAFETY: no memory is lent.
    unsafe { vmx_shown_time(new_time, held_time, number(judged)) }
}

/// A stream that is written: a lent buffer and the place of the next byte.
pub type Out<'a> = (&'a mut [u8], &'a mut usize);
/// A stream that is read.
pub type In<'a> = (&'a [u8], &'a mut usize);

/// Preset and DC shift.
pub type Settings = (usize, u32);

pub fn encode_plane<S>(
    call: EncodePlane<S>,
    (rows, stride, place): (&[S], usize, usize),
    (preset, shift): Settings,
    (dc, dc_at): Out,
    (ac, ac_at): Out,
) -> Verdict {
    let (r, n) = (rows.as_ptr(), rows.len());
    let (d, dn, a, an) = (dc.as_mut_ptr(), dc.len(), ac.as_mut_ptr(), ac.len());
    // SAFETY: rows and buffers are slices, no two of them overlap, the positions are two numbers apart from them.
    verdict(unsafe { call(r, n, stride, place, preset, shift, d, dn, dc_at, a, an, ac_at) })
}

pub fn decode_plane<S>(
    call: DecodePlane<S>,
    (rows, stride, place): (&mut [S], usize, usize),
    (preset, shift): Settings,
    (dc, dc_at): In,
    (ac, ac_at): In,
) -> Verdict {
    let (r, n) = (rows.as_mut_ptr(), rows.len());
    let (d, dn, a, an) = (dc.as_ptr(), dc.len(), ac.as_ptr(), ac.len());
    // SAFETY: rows and streams are slices, the rows overlap no other memory that is lent, the positions are two
    // numbers apart from them. The two streams are only read and may overlap.
    verdict(unsafe { call(r, n, stride, place, preset, shift, d, dn, dc_at, a, an, ac_at) })
}

/// Four planes (rows, stride); the library looks at the first `count`.
pub fn encode_slice<S>(
    call: EncodeSlice<S>,
    [p0, p1, p2, p3]: [(&[S], usize); 4],
    count: usize,
    (preset, shift): Settings,
    (dc, dc_at): Out,
    (ac, ac_at): Out,
) -> Verdict {
    let (d, dn, a, an) = (dc.as_mut_ptr(), dc.len(), ac.as_mut_ptr(), ac.len());
    // SAFETY: as for a plane; the planes' rows are only read.
    verdict(unsafe {
        call(
            p0.0.as_ptr(),
            p0.0.len(),
            p0.1,
            p1.0.as_ptr(),
            p1.0.len(),
            p1.1,
            p2.0.as_ptr(),
            p2.0.len(),
            p2.1,
            p3.0.as_ptr(),
            p3.0.len(),
            p3.1,
            count,
            preset,
            shift,
            d,
            dn,
            dc_at,
            a,
            an,
            ac_at,
        )
    })
}

/// Four planes (rows, stride); the library looks at the first `count`.
pub fn decode_slice<S>(
    call: DecodeSlice<S>,
    [p0, p1, p2, p3]: [(&mut [S], usize); 4],
    count: usize,
    (preset, shift): Settings,
    (dc, dc_at): In,
    (ac, ac_at): In,
) -> Verdict {
    let (d, dn, a, an) = (dc.as_ptr(), dc.len(), ac.as_ptr(), ac.len());
    // SAFETY: as for a plane; the planes' rows overlap neither each other nor the streams.
    verdict(unsafe {
        call(
            p0.0.as_mut_ptr(),
            p0.0.len(),
            p0.1,
            p1.0.as_mut_ptr(),
            p1.0.len(),
            p1.1,
            p2.0.as_mut_ptr(),
            p2.0.len(),
            p2.1,
            p3.0.as_mut_ptr(),
            p3.0.len(),
            p3.1,
            count,
            preset,
            shift,
            d,
            dn,
            dc_at,
            a,
            an,
            ac_at,
        )
    })
}

pub fn preview(
    (upper, lower): (&mut [u8], &mut [u8]),
    stride: usize,
    place: usize,
    shift: u32,
    (dc, at): In,
) -> Verdict {
    let (u, un, l, ln) = (upper.as_mut_ptr(), upper.len(), lower.as_mut_ptr(), lower.len());
    // SAFETY: two outputs and a stream, slices that do not overlap, and a position apart from them.
    verdict(unsafe { vmx_preview(shift, place, stride, u, un, l, ln, dc.as_ptr(), dc.len(), at) })
}

pub fn block_report(report: &mut [u8], stride: usize, (ac, at): In) -> Verdict {
    // SAFETY: output and stream are slices that do not overlap, the position is apart from them.
    verdict(unsafe { vmx_block_report(stride, report.as_mut_ptr(), report.len(), ac.as_ptr(), ac.len(), at) })
}

pub fn plane_size(stride: usize) -> Result<(usize, usize), Refused> {
    let (mut dc, mut ac) = (0, 0);
    // SAFETY: two places of our own.
    verdict(unsafe { vmx_plane_size(stride, &mut dc, &mut ac) })?;
    Ok((dc, ac))
}

pub fn slice_size(count: usize, s: [usize; 4]) -> Result<(usize, usize), Refused> {
    let (mut dc, mut ac) = (0, 0);
    // SAFETY: two places of our own.
    verdict(unsafe { vmx_slice_size(count, s[0], s[1], s[2], s[3], &mut dc, &mut ac) })?;
    Ok((dc, ac))
}
