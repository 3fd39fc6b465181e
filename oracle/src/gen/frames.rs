//! Frames: layouts, headers, streams, damage.

use super::Rng;
use reference::api::layout::Layout;

/// Heights around which the rules of document 01 change.
const HEIGHTS: [usize; 24] = [
    16, 17, 31, 32, 33, 479, 480, 481, 575, 576, 577, 719, 720, 1079, 1080, 1081, 2160, 4080, 4081, 4096, 4097, 4319,
    4320, 288,
];

/// A width and height that a layout takes, mostly small.
pub fn dimensions(rng: &mut Rng) -> (usize, usize) {
    let width = match rng.below(10) {
        0 => 2 * rng.between(8, 3840),
        1 => 7680,
        _ => 2 * rng.between(8, 40),
    };
    let height = if rng.once_in(3) { rng.pick(&HEIGHTS) } else { rng.between(16, 64) };
    (width, height)
}

/// Any width and height, mostly near the limits.
pub fn any_dimensions(rng: &mut Rng) -> (usize, usize) {
    let side = |rng: &mut Rng, limits: &[usize]| match rng.below(4) {
        0 => rng.next() as usize,
        1 => rng.below(9000),
        _ => rng.pick(limits).wrapping_add(rng.below(5)).wrapping_sub(2),
    };
    (
        side(rng, &[0, 16, 18, 640, 1920, 7680, usize::MAX]),
        side(rng, &[0, 16, 480, 576, 1080, 4081, 4096, 4320, usize::MAX]),
    )
}

/// A stream's bytes: mostly short, at times at or past its limit.
fn stream(rng: &mut Rng, limit: usize) -> Vec<u8> {
    let n = match rng.below(60) {
        0 => limit,
        1 => limit + 1,
        2 => rng.below(limit + 20),
        3..=20 => 0,
        _ => rng.below(12),
    };
    rng.bytes(n)
}

/// What a frame is written from.
#[derive(Clone, Debug)]
pub struct Parts {
    pub width: usize,
    pub height: usize,
    pub interlaced: bool,
    pub quality: u8,
    pub dc_shift: u32,
    pub dc: Vec<Vec<u8>>,
    /// As many as DC streams, or none.
    pub ac: Vec<Vec<u8>>,
}

pub fn parts(rng: &mut Rng) -> Parts {
    let (width, height) = dimensions(rng);
    let layout = Layout::new(width, height).expect("dimensions within the limits");
    let n = layout.slices();
    let few = |rng: &mut Rng, limit: usize| -> Vec<Vec<u8>> {
        // In tall frames only one stream may be long.
        let long = rng.below(n);
        (0..n).map(|i| if n < 8 || i == long { stream(rng, limit) } else { rng.bytes(i % 3) }).collect()
    };
    let dc = few(rng, layout.max_dc_len());
    let ac = if rng.once_in(4) { vec![] } else { few(rng, layout.max_ac_len()) };
    Parts {
        width,
        height,
        interlaced: rng.once_in(2),
        quality: rng.next() as u8,
        dc_shift: if rng.once_in(2) { 0 } else { rng.below(16) as u32 },
        dc,
        ac,
    }
}

/// One change to a frame: a byte, a cut, bytes at its end, another header.
pub fn change(rng: &mut Rng, frame: &mut Vec<u8>) {
    let len = frame.len();
    match rng.below(8) {
        0 => frame.truncate(rng.below(len + 1)),
        1 => {
            let n = rng.between(1, 6);
            frame.extend(rng.bytes(n));
        }
        2 => {
            if !frame.is_empty() {
                frame[0] = rng.below(5) as u8;
            }
        }
        3 => {
            frame.splice(0..1.min(len), [3, rng.below(20) as u8, rng.below(4) as u8]);
        }
        4 => {
            if len > 5 {
                let at = rng.below(12.min(len));
                frame[at] = frame[at].wrapping_add(rng.pick(&[1, 255, 2, 128]));
            }
        }
        5 => {}
        _ => {
            if !frame.is_empty() {
                let at = rng.below(len);
                frame[at] = rng.next() as u8;
            }
        }
    }
}
