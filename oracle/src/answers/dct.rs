//! Records of 260 bytes: transforms of a block (direction and depth), a flat block
//! or a mask, preset, level shift, 64 numbers, the 64 answered.

use crate::gen::{lane, planes, Rng, EXTREMES};
use reference::api::tables::{quant, PRESETS};
use reference::api::Path::Sse2;
use reference::api::{dct, lanes, Depth};

/// Levels that a plane has, and for the inverse transform two that none has.
const LEVELS: [i16; 5] = [0, 128, 512, -32768, 32767];

pub fn list(rng: &mut Rng) -> (Vec<u8>, usize) {
    let mut out = Vec::new();
    for round in 0..100 {
        let preset = if round < PRESETS { round } else { rng.below(PRESETS) };
        let q = quant(preset);
        for (kind, depth, max) in [(0, Depth::Eight, 255), (1, Depth::Ten, 1023)] {
            let rows = planes::rows(rng, max);
            let add = -rng.pick(&LEVELS[..3]);
            let answer = dct::fdct_quant_zig(Sse2, &rows, depth, &q.encode, add);
            put(&mut out, kind, preset, add, rows.concat().iter(), answer.iter().map(|x| *x as u16));
        }
        for nat in [planes::coefficients(rng), planes::coefficients(rng)] {
            inverse(&mut out, preset, rng.pick(&LEVELS), &nat);
        }
    }
    for preset in [0, 8, 24] {
        for nat in chosen(rng) {
            inverse(&mut out, preset, rng.pick(&LEVELS[..3]), &nat);
        }
    }
    for k in 0..60 {
        let (dc, level) = (EXTREMES.get(k).copied().unwrap_or_else(|| lane(rng)), rng.pick(&LEVELS));
        let mut p = [0u8; 64];
        dct::broadcast_dc8(dc, &mut p, 8, level);
        let mut nat = [0; 64];
        nat[0] = dc;
        put(&mut out, 4, 0, level, nat.iter(), p.iter().map(|x| *x as u16));
    }
    masks(&mut out, rng);
    let count = out.len() / 260;
    (out, count)
}

/// One block of coefficients into samples of both depths.
fn inverse(out: &mut Vec<u8>, preset: usize, level: i16, nat: &[i16; 64]) {
    let q = quant(preset);
    let mut p = [0u8; 64];
    dct::idct8(Sse2, nat, &q.decode, &mut p, 8, level);
    put(out, 2, preset, level, nat.iter(), p.iter().map(|x| *x as u16));
    let mut p = [0u16; 64];
    dct::idct16(Sse2, nat, &q.decode, &mut p, 8, level);
    put(out, 3, preset, level, nat.iter(), p.iter().copied());
}

/// Coefficients around the largest that a quantiser makes, where products reach 16 bits and wrap: at place 0, at each other
/// place by itself, in whole blocks.
fn chosen(rng: &mut Rng) -> Vec<[i16; 64]> {
    let mut all = vec![];
    let single = |at: usize, v: i16| -> [i16; 64] { core::array::from_fn(|k| if k == at { v } else { 0 }) };
    for v in [-2049, -2048, -2047, -1024, -1, 0, 1, 2, 5, 1023, 1024, 2047, 2048, 2049, 32767, -32768] {
        all.push(single(0, v));
    }
    for place in 1..64 {
        let v = rng.pick(&[-2048, -395, -7, 3, 15, 395, 2048]);
        all.push(single(place, v));
    }
    for limit in [2, 8, 64, 400, 2049, 4097] {
        all.push(core::array::from_fn(|_| rng.below(2 * limit - 1) as i16 - (limit as i16 - 1)));
    }
    all
}

/// Masks of non-zero places: none, all, each place alone, extremes, coefficients.
fn masks(out: &mut Vec<u8>, rng: &mut Rng) {
    let mut all = vec![[0; 64], [-32768; 64], [256; 64]];
    all.extend((0..64).map(|at| core::array::from_fn(|k| if k == at { EXTREMES[at % EXTREMES.len()] } else { 0 })));
    all.extend((0..30).map(|_| core::array::from_fn(|_| if rng.once_in(2) { rng.pick(&EXTREMES) } else { 0 })));
    all.extend((0..10).map(|_| planes::coefficients(rng)));
    for block in all {
        let mask = lanes::nonzero_mask(Sse2, &block);
        let words: [u16; 64] = core::array::from_fn(|k| if k < 4 { (mask >> (16 * k)) as u16 } else { 0 });
        put(out, 5, 0, 0, block.iter(), words.into_iter());
    }
}

fn put<'a>(
    out: &mut Vec<u8>,
    kind: u8,
    preset: usize,
    level: i16,
    numbers: impl Iterator<Item = &'a i16>,
    answer: impl Iterator<Item = u16>,
) {
    out.extend([kind, preset as u8]);
    out.extend(level.to_le_bytes());
    out.extend(numbers.flat_map(|x| x.to_le_bytes()));
    out.extend(answer.flat_map(|x| x.to_le_bytes()));
}
