//! Records of 144 bytes: the questions to calls on planes and slices by numbers
//! alone, with any lengths and starts, and the size calls.

use crate::gen::Rng;
use crate::questions::{self, Settings, Shape, AC_READ_MAX, DC_READ_MAX, NO_PLANE, STARTS, START_MAX};

const CODING: u8 = 0;
const READING: u8 = 1;
/// Added for a slice.
const SLICE: u8 = 2;
const PLANE_SIZE: u8 = 4;
const SLICE_SIZE: u8 = 5;
const RECORD: usize = 144;

const STRIDES: [usize; 18] =
    [0, 1, 4, 7, 8, 9, 12, 16, 7672, 7676, 7679, 7680, 7681, 7684, 7688, (1 << 32) + 8, usize::MAX - 7, usize::MAX];

/// What a call is given, by numbers: a plane's place or how many planes a slice has; of each stream its length and the start.
#[derive(Clone)]
struct Asked {
    op: u8,
    settings: Settings,
    which: usize,
    strides: [usize; 4],
    rows: [usize; 4],
    dc: (usize, usize),
    ac: (usize, usize),
}

pub fn list(rng: &mut Rng) -> (Vec<u8>, usize) {
    let mut out = vec![];
    for op in [CODING, READING, CODING + SLICE, READING + SLICE] {
        settings(&mut out, op);
        for plane in 0..if op < SLICE { 1 } else { 4 } {
            strides(&mut out, op, plane);
            rows(&mut out, op, plane);
        }
        let base = asked(op, 8);
        let need = need(&base);
        for at in STARTS {
            streams(&mut out, &base, need, at);
        }
        if op % SLICE == READING {
            lengths(&mut out, &base);
        }
    }
    sizes(&mut out, rng);
    let count = out.len() / RECORD;
    (out, count)
}

/// A call that is accepted: four planes of a stride, or one, with room to the byte from the starts 3 and 5.
fn asked(op: u8, stride: usize) -> Asked {
    let mut a = Asked {
        op,
        settings: Settings { preset: 24, dc_shift: 15 },
        which: if op < SLICE { 3 } else { 4 },
        strides: [stride; 4],
        rows: [16 * stride; 4],
        dc: (0, 3),
        ac: (0, 5),
    };
    let need = need(&a);
    (a.dc.0, a.ac.0) = (3 + need.0, 5 + need.1);
    if op % SLICE == READING {
        (a.dc.0, a.ac.0) = (DC_READ_MAX, AC_READ_MAX);
    }
    a
}

/// Room for all planes.
fn need(a: &Asked) -> (usize, usize) {
    room(&a.strides[..if a.op < SLICE { 1 } else { 4 }])
}

/// The size call's lengths for planes of these strides.
fn room(strides: &[usize]) -> (usize, usize) {
    strides.iter().map(|s| questions::sizes(*s)).fold((0, 0), |x, y| (x.0 + y.0, x.1 + y.1))
}

/// Questions 1 to 3.
fn settings(out: &mut Vec<u8>, op: u8) {
    for preset in [0, 23, 24, 25, 26, 255, 256, 1 << 32, (1 << 32) + 24, usize::MAX] {
        let mut a = asked(op, 8);
        a.settings.preset = preset;
        put(out, &a);
    }
    for dc_shift in [0, 14, 15, 16, 17, 31, 32, 255, 256, 1 << 16, 1 << 31, u32::MAX] {
        let mut a = asked(op, 8);
        a.settings.dc_shift = dc_shift;
        put(out, &a);
    }
    for which in [0, 1, 2, 3, 4, 5, 6, 255, 256, 257, 1 << 32, (1 << 32) + 1, usize::MAX] {
        put(out, &Asked { which, ..asked(op, 8) });
    }
}

/// Question 4 of a plane, with rows and room to the byte where the stride is near its limits.
fn strides(out: &mut Vec<u8>, op: u8, plane: usize) {
    for stride in STRIDES {
        let mut a = asked(op, 8);
        a.strides[plane] = stride;
        a.rows[plane] = stride.saturating_mul(16);
        if op % SLICE == CODING {
            let need = if stride < 8000 { need(&a) } else { (1 << 20, 1 << 20) };
            (a.dc.0, a.ac.0) = (3 + need.0, 5 + need.1);
        }
        put(out, &a);
        // What is behind the planes that are counted is not asked about.
        if op >= SLICE && plane > 0 {
            put(out, &Asked { which: plane, ..a });
        }
    }
}

/// Question 5 of a plane.
fn rows(out: &mut Vec<u8>, op: u8, plane: usize) {
    for stride in [8, 1920, 7680] {
        let mut a = asked(op, stride);
        if op % SLICE == READING {
            (a.dc.0, a.ac.0) = (3, 3);
        }
        for len in [0, 15 * stride, 16 * stride - 1, 16 * stride, 16 * stride + 1, usize::MAX] {
            a.rows[plane] = len;
            put(out, &a);
        }
    }
}

/// Questions 6 and 7 of a start, of DC and of AC: a byte too few, room to the byte, all the room there can be.
fn streams(out: &mut Vec<u8>, base: &Asked, need: (usize, usize), at: usize) {
    let lens = |need: usize| [at.saturating_add(need - 1), at.saturating_add(need), at.saturating_sub(1), usize::MAX];
    for len in lens(need.0) {
        put(out, &Asked { dc: (len, at), ..base.clone() });
    }
    for len in lens(need.1) {
        put(out, &Asked { ac: (len, at), ..base.clone() });
    }
}

/// Question 7 of the whole stream, from starts in it, at its end, after it and too far.
fn lengths(out: &mut Vec<u8>, base: &Asked) {
    let around = [DC_READ_MAX, AC_READ_MAX].into_iter().flat_map(|n| [n - 1, n, n + 1]);
    for len in around.chain([0, 3, 1 << 32, usize::MAX]) {
        for at in [0, 1, len.saturating_sub(1), len, len.saturating_add(1), START_MAX, START_MAX + 1] {
            put(out, &Asked { dc: (len, at), ..base.clone() });
            put(out, &Asked { ac: (len, at), ..base.clone() });
        }
    }
}

/// The size calls: every limit of a stride, of each plane, and any planes.
fn sizes(out: &mut Vec<u8>, rng: &mut Rng) {
    for stride in STRIDES.into_iter().chain((1..40).map(|k| 8 * k)).chain([1920, 3840]) {
        put(out, &asked(PLANE_SIZE, 8).with(0, stride));
        for plane in 0..4 {
            let which = rng.between(1, 4);
            put(out, &Asked { which, ..asked(SLICE_SIZE, 8).with(plane, stride) });
        }
    }
    for which in [0, 1, 2, 3, 4, 5, 6, 255, 256, 257, 1 << 32, (1 << 32) + 1, usize::MAX] {
        let strides = core::array::from_fn(|_| 8 * rng.between(1, 960));
        put(out, &Asked { which, strides, ..asked(SLICE_SIZE, 8) });
    }
}

impl Asked {
    /// The same with another stride of a plane.
    fn with(mut self, plane: usize, stride: usize) -> Self {
        self.strides[plane] = stride;
        self
    }

    /// The planes that count; five where there are more than four.
    fn shapes(&self) -> Vec<Shape> {
        let shape = |k: usize, place| Shape { place, stride: self.strides[k % 4], len: self.rows[k % 4] };
        if self.op < SLICE {
            return vec![shape(0, self.which)];
        }
        (0..self.which.min(5)).map(|k| shape(k, k.min(3))).collect()
    }
}

/// The number, and the lengths that a size call names.
fn answer(a: &Asked) -> (u32, (usize, usize)) {
    match a.op {
        PLANE_SIZE | SLICE_SIZE => {
            let count = if a.op == PLANE_SIZE { 1 } else { a.which };
            if !(1..=4).contains(&count) {
                return (NO_PLANE, (0, 0));
            }
            match questions::strides(&a.strides[..count]) {
                0 => (0, room(&a.strides[..count])),
                number => (number, (0, 0)),
            }
        }
        op if op % SLICE == CODING => (questions::coding(a.settings, &a.shapes(), a.dc, a.ac), (0, 0)),
        _ => (questions::reading(a.settings, &a.shapes(), a.dc, a.ac), (0, 0)),
    }
}

fn put(out: &mut Vec<u8>, a: &Asked) {
    let (number, (dc, ac)) = answer(a);
    out.extend([a.op, number as u8, 0, 0, 0, 0, 0, 0]);
    let first = [a.settings.preset, a.settings.dc_shift as usize, a.which];
    let last = [a.dc.0, a.dc.1, a.ac.0, a.ac.1, dc, ac];
    for n in first.into_iter().chain(a.strides).chain(a.rows).chain(last) {
        out.extend((n as u64).to_le_bytes());
    }
}
