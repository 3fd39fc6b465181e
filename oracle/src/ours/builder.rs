//! Building a frame, through the library that programs link (include/vmx.h).

#[rustfmt::skip]
unsafe extern "C" {
    fn vmx_frame_start(
        width: usize, height: usize, interlaced: u32, quality: u8, shift: u32, out: *mut u8, n: usize, ac_turn: &mut u32,
        next: &mut usize, at: &mut usize,
    ) -> u32;
    fn vmx_frame_put(
        width: usize, height: usize, ac: u32, slice: usize, stream: *const u8, sn: usize, out: *mut u8, n: usize,
        ac_turn: &mut u32, next: &mut usize, at: &mut usize,
    ) -> u32;
    fn vmx_frame_complete(width: usize, height: usize, ac_turn: u32, next: usize, complete: &mut u32) -> u32;
}

/// The builder's state.
#[derive(Clone, Copy, Debug, PartialEq)]
pub struct State {
    pub ac_turn: u32,
    pub next: usize,
    pub at: usize,
}

/// A frame's header at `at`.
pub fn start(
    (width, height): (usize, usize),
    interlaced: bool,
    quality: u8,
    shift: u32,
    out: &mut [u8],
    at: usize,
) -> Result<State, u32> {
    let before = State { ac_turn: 7, next: 7, at };
    let mut s = before;
    let (p, n, t, x, a) = (out.as_mut_ptr(), out.len(), &mut s.ac_turn, &mut s.next, &mut s.at);
    // SAFETY: the output with its own length, and three places of our own.
    let number = unsafe { vmx_frame_start(width, height, interlaced as u32, quality, shift, p, n, t, x, a) };
    if number > 0 {
        assert_eq!(s, before, "a refused header leaves the state as it was");
        return Err(number);
    }
    Ok(s)
}

/// One stream; the number, 0 where it is accepted.
pub fn stream(
    (width, height): (usize, usize),
    state: &mut State,
    ac: bool,
    slice: usize,
    bytes: &[u8],
    out: &mut [u8],
) -> u32 {
    let (b, bn, p, n) = (bytes.as_ptr(), bytes.len(), out.as_mut_ptr(), out.len());
    let State { ac_turn, next, at } = state;
    // SAFETY: stream and output with their own lengths, apart from each other and from the state's three places.
    unsafe { vmx_frame_put(width, height, ac as u32, slice, b, bn, p, n, ac_turn, next, at) }
}

/// Whether the frame is complete.
pub fn complete((width, height): (usize, usize), state: &State) -> Result<bool, u32> {
    let mut complete = 7;
    // SAFETY: one place of our own.
    let number = unsafe { vmx_frame_complete(width, height, state.ac_turn, state.next, &mut complete) };
    match (number, complete) {
        (0, 0 | 1) => Ok(complete == 1),
        (1.., 7) => Err(number),
        _ => panic!("number {number}, complete {complete}"),
    }
}
