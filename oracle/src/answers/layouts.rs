//! Records of 80 bytes: what follows from a frame's size, or the refusal.

use crate::gen::Rng;
use reference::api::layout::{number, Layout};

const SIZES: u8 = 0;
const IMAGE_ROW: u8 = 1;
const PREVIEW: u8 = 2;
const RECORD: usize = 80;

/// Heights at which a frame may be interlaced, and next to them; whole slices, and one row more or fewer.
const HEIGHTS: [usize; 24] = [
    16, 17, 24, 31, 32, 33, 479, 480, 481, 575, 576, 577, 720, 1079, 1080, 1081, 1088, 2160, 4080, 4081, 4096, 4097,
    4319, 4320,
];

pub fn list(rng: &mut Rng) -> (Vec<u8>, usize) {
    let mut out = vec![];
    let wide = [718, 720, 1278, 1280, 1918, 1920, 3838, 3840, 7674, 7676, 7678, 7680];
    for width in (16..=64).step_by(2).chain(wide) {
        sizes(&mut out, width, rng.between(16, 4320));
        previews(&mut out, width, rng.between(16, 4320));
    }
    for height in HEIGHTS.into_iter().chain(4080..=4098) {
        sizes(&mut out, 18, height);
        previews(&mut out, 18, height);
    }
    for height in HEIGHTS {
        rows(&mut out, rng, height);
    }
    for (width, height) in refused() {
        sizes(&mut out, width, height);
    }
    let count = out.len() / RECORD;
    (out, count)
}

/// Odd, too small and too large; within when they are cut to 32 bits.
fn refused() -> Vec<(usize, usize)> {
    let far = [1 << 32, (1 << 32) + 16, 1 << 63, usize::MAX - 1, usize::MAX];
    let mut all: Vec<(usize, usize)> = [0, 2, 8, 14, 15, 17, 19, 7679, 7681, 7682].map(|width| (width, 16)).to_vec();
    all.extend([0, 1, 15, 4321, 4322, 4336].map(|height| (16, height)));
    all.extend(far.map(|width| (width, 16)));
    all.extend(far.map(|height| (16, height)));
    all.extend([(0, 0), (15, 15), (7682, 4321), (usize::MAX, usize::MAX)]);
    all
}

fn sizes(out: &mut Vec<u8>, width: usize, height: usize) {
    match Layout::new(width, height) {
        Err(e) => put(out, [SIZES, number(e) as u8, 0, 0], [width, height, 0], &[]),
        Ok(l) => {
            let [luma, chroma, ..] = l.strides();
            let all = [l.aligned_height(), l.slices(), luma, chroma, l.max_dc_len(), l.max_ac_len()];
            put(out, [SIZES, 0, 0, 0], [width, height, 0], &all);
        }
    }
}

fn previews(out: &mut Vec<u8>, width: usize, height: usize) {
    let l = Layout::new(width, height).unwrap();
    for interlaced in [false, true] {
        let (w, h) = l.preview_size(interlaced);
        let first = [PREVIEW, 0, interlaced as u8, l.interlace_capable() as u8];
        put(out, first, [width, height, 0], &[w, h]);
    }
}

/// Rows at both ends of each field and of the picture, and after them.
fn rows(out: &mut Vec<u8>, rng: &mut Rng, height: usize) {
    let l = Layout::new(18, height).unwrap();
    let aligned = l.aligned_height();
    let ends = [height / 2, aligned / 2, aligned / 2 + height / 2, height, aligned];
    let around = ends.into_iter().flat_map(|e| [e - 1, e, e + 1]);
    let all: Vec<usize> = around.chain([0, 1, rng.below(height), rng.below(height), 1 << 32, usize::MAX]).collect();
    for interlaced in [false, true] {
        for r in &all {
            let row = l.image_row(*r, interlaced);
            let first = [IMAGE_ROW, 0, interlaced as u8, row.is_some() as u8];
            put(out, first, [18, height, *r], &[row.unwrap_or(0)]);
        }
    }
}

/// What is asked, the refusal's number, a flag given and one answered; width, height, row; the numbers answered.
fn put(out: &mut Vec<u8>, first: [u8; 4], given: [usize; 3], answered: &[usize]) {
    out.extend(first);
    out.extend([0; 4]);
    let rest = [0; 6];
    for n in given.into_iter().chain(answered.iter().copied()).chain(rest).take(9) {
        out.extend((n as u64).to_le_bytes());
    }
}
