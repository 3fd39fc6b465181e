//! Document 01's questions before any work, for the calls that code and read
//! planes and slices: the number of the first "no", or 0.

/// The settings of a call.
#[derive(Clone, Copy, Debug)]
pub struct Settings {
    pub preset: usize,
    pub dc_shift: u32,
}

/// A plane as it is handed over: its place, its stride, and how many samples its rows have.
#[derive(Clone, Copy, Debug)]
pub struct Shape {
    pub place: usize,
    pub stride: usize,
    pub len: usize,
}

// The numbers, by what a "no" says, and the limits; the same names as in crates/ask, written down here once more so that
// the two can be compared.
pub const NO_PRESET: u32 = 1;
pub const NO_SHIFT: u32 = 2;
pub const NO_PLANE: u32 = 3;
pub const NO_STRIDE: u32 = 4;
pub const NO_ROWS: u32 = 5;
pub const NO_ROOM: u32 = 6;
pub const NO_START: u32 = 7;
pub const NO_CODE: u32 = 8;
pub const NO_LIMIT: u32 = 13;
pub const NO_TURN: u32 = 14;

pub const PRESET_MAX: usize = 24;
pub const SHIFT_MAX: u32 = 15;
pub const PLACE_MAX: usize = 3;
pub const PLANES_MAX: usize = 4;
pub const STRIDE_MAX: usize = 7680;
pub const DC_BLOCK_BYTES: usize = 4;
pub const AC_BLOCK_BYTES: usize = 197;
pub const START_MAX: usize = 16_777_215;
pub const DC_READ_MAX: usize = 245_760;
pub const AC_READ_MAX: usize = 430_080;
pub const SLICES_MAX: usize = 270;

/// Starts around question 7's limit and far above it, and around a million.
pub const STARTS: [usize; 11] =
    [0, 1, 999_999, 1_000_000, 1_000_001, START_MAX - 1, START_MAX, START_MAX + 1, 1 << 32, 1 << 63, usize::MAX];

/// The size call's lengths for a stride.
pub fn sizes(stride: usize) -> (usize, usize) {
    (DC_BLOCK_BYTES * (stride / 4), AC_BLOCK_BYTES * (stride / 4))
}

/// Question 4 over all planes.
pub fn strides(all: &[usize]) -> u32 {
    if all.iter().any(|s| s % 8 != 0 || *s < 8 || *s > STRIDE_MAX) {
        NO_STRIDE
    } else {
        0
    }
}

/// Questions 1 to 5, over all planes before the next question.
fn shapes(s: Settings, planes: &[Shape]) -> u32 {
    if s.preset > PRESET_MAX {
        return NO_PRESET;
    }
    if s.dc_shift > SHIFT_MAX {
        return NO_SHIFT;
    }
    if planes.is_empty() || planes.len() > PLANES_MAX || planes.iter().any(|p| p.place > PLACE_MAX) {
        return NO_PLANE;
    }
    if planes.iter().any(|p| strides(&[p.stride]) > 0) {
        return NO_STRIDE;
    }
    if planes.iter().any(|p| p.len < 16 * p.stride) {
        return NO_ROWS;
    }
    0
}

/// The number of a coding call with `dc` and `ac` as the buffers' lengths and the starts.
pub fn coding(s: Settings, planes: &[Shape], dc: (usize, usize), ac: (usize, usize)) -> u32 {
    match shapes(s, planes) {
        0 => {}
        number => return number,
    }
    let need = planes.iter().map(|p| sizes(p.stride)).fold((0, 0), |a, b| (a.0 + b.0, a.1 + b.1));
    let room = |(len, at): (usize, usize), need: usize| len.checked_sub(at).is_some_and(|left| left >= need);
    if !room(dc, need.0) || !room(ac, need.1) {
        return NO_ROOM;
    }
    if dc.1 > START_MAX || ac.1 > START_MAX {
        return NO_START;
    }
    0
}

/// The number of a reading call before question 8, with the streams' lengths and the starts.
pub fn reading(s: Settings, planes: &[Shape], dc: (usize, usize), ac: (usize, usize)) -> u32 {
    match shapes(s, planes) {
        0 => {}
        number => return number,
    }
    if dc.1 > START_MAX || ac.1 > START_MAX || dc.0 > DC_READ_MAX || ac.0 > AC_READ_MAX {
        return NO_START;
    }
    0
}

/// The number of a preview before question 8 (it has no preset): outputs, the stream's length and start.
pub fn preview(dc_shift: u32, place: usize, stride: usize, outs: (usize, usize), dc: (usize, usize)) -> u32 {
    match shapes(Settings { preset: 0, dc_shift }, &[Shape { place, stride, len: usize::MAX }]) {
        0 => {}
        number => return number,
    }
    if outs.0 < stride / 8 || outs.1 < stride / 8 {
        return NO_ROWS;
    }
    if dc.1 > START_MAX || dc.0 > DC_READ_MAX {
        return NO_START;
    }
    0
}

/// The number of a block report before question 8: the buffer's length, the stream's length and start.
pub fn report(stride: usize, out: usize, ac: (usize, usize)) -> u32 {
    match shapes(Settings { preset: 0, dc_shift: 0 }, &[Shape { place: 0, stride, len: usize::MAX }]) {
        0 => {}
        number => return number,
    }
    if out < stride / 4 {
        return NO_ROWS;
    }
    if ac.1 > START_MAX || ac.0 > AC_READ_MAX {
        return NO_START;
    }
    0
}

/// Shown rows: 4, 5 (up to the slice's end in both pictures, which have so many samples), 14.
pub fn shown(new: usize, held: usize, stride: usize, slice: usize) -> u32 {
    let whole = |len: usize| slice.checked_add(1).and_then(|s| s.checked_mul(16 * stride)).is_some_and(|e| e <= len);
    if strides(&[stride]) > 0 {
        NO_STRIDE
    } else if !whole(new) || !whole(held) {
        NO_ROWS
    } else if slice >= SLICES_MAX {
        NO_TURN
    } else {
        0
    }
}
