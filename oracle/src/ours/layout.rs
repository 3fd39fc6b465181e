//! Frame geometry and reading a frame, through the library that programs link (include/vmx.h); a stream as a part of the
//! frame, by crates/probe/src/of_parts.rt.

#[rustfmt::skip]
unsafe extern "C" {
    safe fn vmx_layout(
        width: usize, height: usize, aligned_height: &mut usize, slices: &mut usize, luma: &mut usize, chroma: &mut usize,
        max_dc: &mut usize, max_ac: &mut usize,
    ) -> u32;
    safe fn vmx_interlace_capable(width: usize, height: usize, capable: &mut u32) -> u32;
    safe fn vmx_image_row(
        width: usize, height: usize, r: usize, interlaced: u32, there: &mut u32, row: &mut usize,
    ) -> u32;
    safe fn vmx_preview_size(
        width: usize, height: usize, interlaced: u32, preview_width: &mut usize, preview_height: &mut usize,
    ) -> u32;
    fn vmx_parse(
        width: usize, height: usize, frame: *const u8, n: usize, interlaced: &mut u32, quality: &mut u32, shift: &mut u32,
        header_len: &mut usize, ac: &mut u32,
    ) -> u32;
    fn vmx_streams(
        width: usize, height: usize, frame: *const u8, n: usize, views: *mut u32, room: usize, interlaced: &mut u32,
        quality: &mut u32, shift: &mut u32, header_len: &mut usize, ac: &mut u32,
    ) -> u32;
    fn vmx_stream(
        width: usize, height: usize, frame: *const u8, n: usize, ac: u32, slice: usize, offset: &mut usize, len: &mut usize,
    ) -> u32;
    fn probe_parts_stream(
        width: usize, height: usize, frame: *const u8, n: usize, ac: bool, slice: usize, number: &mut u32, out: *mut u8,
        room: usize,
    ) -> usize;
}

/// Aligned height, slices, strides of planes 0 and 1, limits for DC and AC; or the refusal's number.
pub fn new(width: usize, height: usize) -> Result<[usize; 6], u32> {
    let mut out = [7; 6];
    let [h, s, y, c, d, a] = &mut out;
    match vmx_layout(width, height, h, s, y, c, d, a) {
        0 => Ok(out),
        number => {
            assert_eq!(out, [7; 6], "a refused size stores nothing");
            Err(number)
        }
    }
}

pub fn interlace_capable(width: usize, height: usize) -> Result<bool, u32> {
    let mut capable = 7;
    match vmx_interlace_capable(width, height, &mut capable) {
        0 => Ok(truth(capable)),
        number => {
            assert_eq!(capable, 7, "a refused size stores nothing");
            Err(number)
        }
    }
}

pub fn image_row(width: usize, height: usize, r: usize, interlaced: bool) -> Result<Option<usize>, u32> {
    let (mut there, mut row) = (7, 7_777);
    match vmx_image_row(width, height, r, interlaced as u32, &mut there, &mut row) {
        0 if truth(there) => Ok(Some(row)),
        0 => {
            assert_eq!(row, 7_777, "padding leaves the row's place");
            Ok(None)
        }
        number => {
            assert_eq!((there, row), (7, 7_777), "a refused size stores nothing");
            Err(number)
        }
    }
}

pub fn preview_size(width: usize, height: usize, interlaced: bool) -> Result<(usize, usize), u32> {
    let (mut w, mut h) = (7_777, 7_777);
    match vmx_preview_size(width, height, interlaced as u32, &mut w, &mut h) {
        0 => Ok((w, h)),
        number => {
            assert_eq!((w, h), (7_777, 7_777), "a refused size stores nothing");
            Err(number)
        }
    }
}

/// A truth value is handed out as 1 or 0.
fn truth(number: u32) -> bool {
    assert!(number < 2, "{number} is no truth value");
    number == 1
}

/// Interlaced, quality, DC shift, header length, AC there; or the refusal's number.
pub fn parse(width: usize, height: usize, frame: &[u8]) -> Result<[usize; 5], u32> {
    let (p, n) = (frame.as_ptr(), frame.len());
    // SAFETY: the frame with its own length.
    header(|[a, b, c, d], len| unsafe { vmx_parse(width, height, p, n, a, b, c, len, d) })
}

/// The same, and all streams' offsets and lengths in the table.
pub fn streams(width: usize, height: usize, frame: &[u8], table: &mut [u32]) -> Result<[usize; 5], u32> {
    let (p, n, t, room) = (frame.as_ptr(), frame.len(), table.as_mut_ptr(), table.len());
    // SAFETY: frame and table with their own lengths, which do not overlap.
    header(|[a, b, c, d], len| unsafe { vmx_streams(width, height, p, n, t, room, a, b, c, len, d) })
}

fn header(call: impl FnOnce([&mut u32; 4], &mut usize) -> u32) -> Result<[usize; 5], u32> {
    let (mut interlaced, mut quality, mut shift, mut header_len, mut ac) = (7, 7, 7, 7, 7);
    let number = call([&mut interlaced, &mut quality, &mut shift, &mut ac], &mut header_len);
    let found = [interlaced as usize, quality as usize, shift as usize, header_len, ac as usize];
    if number > 0 {
        assert_eq!(found, [7; 5], "a refused frame stores nothing");
        return Err(number);
    }
    Ok(found)
}

/// A slice's stream as offset and length; or the refusal's number.
pub fn view(width: usize, height: usize, frame: &[u8], ac: bool, slice: usize) -> Result<(usize, usize), u32> {
    let (mut offset, mut len) = (7, 7);
    let (p, n) = (frame.as_ptr(), frame.len());
    // SAFETY: the frame with its own length.
    match unsafe { vmx_stream(width, height, p, n, ac as u32, slice, &mut offset, &mut len) } {
        0 => Ok((offset, len)),
        number => {
            assert_eq!((offset, len), (0, 0), "a refused stream is an empty part");
            Err(number)
        }
    }
}

/// A slice's stream, the part of the frame that is handed back: its bytes, and the number of the answer.
pub fn part(width: usize, height: usize, frame: &[u8], ac: bool, slice: usize) -> (Vec<u8>, u32) {
    let mut number = u32::MAX;
    let mut out = vec![0; frame.len()];
    let (p, n, o) = (frame.as_ptr(), frame.len(), out.as_mut_ptr());
    // SAFETY: frame and output with their own lengths, which do not overlap.
    let len = unsafe { probe_parts_stream(width, height, p, n, ac, slice, &mut number, o, n) };
    out.truncate(len);
    (out, number)
}
