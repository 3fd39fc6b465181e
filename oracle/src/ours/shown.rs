//! Shown rows, through the library that programs link (include/vmx.h); as a part of one of the two pictures, by
//! crates/probe/src/of_parts.rt.

#[rustfmt::skip]
unsafe extern "C" {
    safe fn vmx_shown_rows(
        new_len: usize, held_len: usize, stride: usize, slice: usize, verdict: u32, from_new: &mut u32, offset: &mut usize,
        len: &mut usize,
    ) -> u32;
    safe fn vmx_shown_time(new: u64, held: u64, verdict: u32) -> u64;
    fn probe_parts_rows8(
        new: *const u8, n: usize, held: *const u8, m: usize, stride: usize, slice: usize, verdict: u32, number: &mut u32,
        out: *mut u8, room: usize,
    ) -> usize;
    fn probe_parts_rows10(
        new: *const u16, n: usize, held: *const u16, m: usize, stride: usize, slice: usize, verdict: u32, number: &mut u32,
        out: *mut u16, room: usize,
    ) -> usize;
}

/// For pictures of these lengths whether the rows lie in the new one, and their offset and length; or the refusal's number.
pub fn place(new: usize, held: usize, stride: usize, slice: usize, verdict: u32) -> Result<(bool, usize, usize), u32> {
    let (mut from_new, mut offset, mut len) = (7, 7, 7);
    let number = vmx_shown_rows(new, held, stride, slice, verdict, &mut from_new, &mut offset, &mut len);
    if number > 0 {
        assert_eq!((from_new, offset, len), (7, 0, 0), "a refused view is an empty part, and no picture is named");
        return Err(number);
    }
    Ok((from_new == 1, offset, len))
}

/// The rows to be shown, or the refusal's number.
pub fn rows<T: Clone>(new: &[T], held: &[T], stride: usize, slice: usize, verdict: u32) -> Result<Vec<T>, u32> {
    let (from_new, offset, len) = place(new.len(), held.len(), stride, slice, verdict)?;
    let from = if from_new { new } else { held };
    Ok(from[offset..offset + len].to_vec())
}

pub fn time(new: u64, held: u64, verdict: u32) -> u64 {
    vmx_shown_time(new, held, verdict)
}

/// The part of one of the two pictures that is handed back, and the number of the answer.
pub fn part8(new: &[u8], held: &[u8], stride: usize, slice: usize, verdict: u32) -> (Vec<u8>, u32) {
    let mut number = u32::MAX;
    let mut out = vec![0; new.len().max(held.len())];
    let (n, m, room) = (new.len(), held.len(), out.len());
    let (p, h, o) = (new.as_ptr(), held.as_ptr(), out.as_mut_ptr());
    // SAFETY: three slices with their own lengths; the output is apart from the two that are read.
    let len = unsafe { probe_parts_rows8(p, n, h, m, stride, slice, verdict, &mut number, o, room) };
    out.truncate(len);
    (out, number)
}

/// The same of 10-bit samples.
pub fn part10(new: &[u16], held: &[u16], stride: usize, slice: usize, verdict: u32) -> (Vec<u16>, u32) {
    let mut number = u32::MAX;
    let mut out = vec![0; new.len().max(held.len())];
    let (n, m, room) = (new.len(), held.len(), out.len());
    let (p, h, o) = (new.as_ptr(), held.as_ptr(), out.as_mut_ptr());
    // SAFETY: three slices with their own lengths; the output is apart from the two that are read.
    let len = unsafe { probe_parts_rows10(p, n, h, m, stride, slice, verdict, &mut number, o, room) };
    out.truncate(len);
    (out, number)
}
