//! Transforms: forward on any rows and on samples, inverse on any coefficients.

use super::Run;
use crate::gen::{self, planes};
use crate::ours;
use crate::report::Kind;
use reference::api::tables::{quant, Quant, PRESETS};
use reference::api::{dct, Depth, Path};

/// Levels that a block may be shifted by, and some that no plane has.
const LEVELS: [i16; 5] = [0, 128, 512, -32768, 32767];

pub fn run(run: &mut Run) {
    let quants: Vec<Quant> = (0..PRESETS).map(quant).collect();
    let kinds = [Kinds::new(run, Depth::Eight), Kinds::new(run, Depth::Ten)];
    while run.more() {
        for _ in 0..50 {
            for k in &kinds {
                forward(run, &quants, k);
                inverse(run, &quants, k);
            }
            flat(run);
        }
    }
}

struct Kinds {
    depth: Depth,
    forward: Kind,
    inverse: Kind,
    forward_paths: Kind,
    inverse_paths: Kind,
}

impl Kinds {
    fn new(run: &mut Run, depth: Depth) -> Self {
        let mut kind = |name: &str| run.report.kind(format!("dct: {name}, {depth:?}"));
        Kinds {
            depth,
            forward: kind("fdct_quant_zig"),
            inverse: kind("inverse and store"),
            forward_paths: kind("the Rust's two paths agree, forward"),
            inverse_paths: kind("the Rust's two paths agree, inverse"),
        }
    }
}

fn forward(run: &mut Run, quants: &[Quant], k: &Kinds) {
    let (depth, max) = (k.depth, if k.depth == Depth::Eight { 255 } else { 1023 });
    let rows = planes::rows(&mut run.rng, max);
    let preset = run.rng.below(PRESETS);
    let add = (run.rng.pick(&LEVELS) as i32).wrapping_neg() as i16;
    let f = |p| dct::fdct_quant_zig(p, &rows, depth, &quants[preset].encode, add);
    let size = weight(rows.iter().flatten());
    let wanted = f(Path::Sse2);
    let text = || format!("preset {preset} add {add} {rows:?}");
    run.report.same(k.forward, &ours::dct::forward(&rows, depth, preset, add), &wanted, size, text);
    run.report.same(k.forward_paths, &f(Path::Portable), &wanted, size, text);
}

/// Rows with other samples between the block's and after it: those stay.
fn inverse(run: &mut Run, quants: &[Quant], k: &Kinds) {
    let (kind, paths) = (k.inverse, k.inverse_paths);
    let nat = planes::coefficients(&mut run.rng);
    let preset = run.rng.below(PRESETS);
    let level = run.rng.pick(&LEVELS);
    let stride = if run.rng.once_in(4) { 8 * run.rng.between(1, 4) } else { 8 };
    let m = &quants[preset].decode;
    let size = weight(nat.iter());
    let text = || format!("preset {preset} level {level} stride {stride} {nat:?}");
    let n = 7 * stride + 8 + run.rng.below(5);
    match k.depth {
        Depth::Eight => {
            let before = run.rng.bytes(n);
            let rust = |p| {
                let mut out = before.clone();
                dct::idct8(p, &nat, m, &mut out, stride, level);
                out
            };
            let (mut out, wanted) = (before.clone(), rust(Path::Sse2));
            ours::dct::inverse8(&nat, preset, level, &mut out, stride);
            run.report.same(kind, &out, &wanted, size, text);
            run.report.same(paths, &rust(Path::Portable), &wanted, size, text);
        }
        Depth::Ten => {
            let before: Vec<u16> = (0..n).map(|_| run.rng.next() as u16).collect();
            let rust = |p| {
                let mut out = before.clone();
                dct::idct16(p, &nat, m, &mut out, stride, level);
                out
            };
            let (mut out, wanted) = (before.clone(), rust(Path::Sse2));
            ours::dct::inverse16(&nat, preset, level, &mut out, stride);
            run.report.same(kind, &out, &wanted, size, text);
            run.report.same(paths, &rust(Path::Portable), &wanted, size, text);
        }
    }
}

/// Blocks with few and small numbers count as small.
fn weight<'a>(lanes: impl Iterator<Item = &'a i16>) -> usize {
    lanes.map(|x| (17 - x.unsigned_abs().leading_zeros()) as usize * (*x != 0) as usize).sum()
}

fn flat(run: &mut Run) {
    let kind = run.report.kind("dct: broadcast_dc8");
    let (dc, level) = (gen::lane(&mut run.rng), run.rng.pick(&LEVELS));
    let stride = 8 * run.rng.between(1, 3);
    let before = run.rng.bytes(7 * stride + 8);
    let (mut out, mut wanted) = (before.clone(), before);
    dct::broadcast_dc8(dc, &mut wanted, stride, level);
    ours::dct::flat(dc, level, &mut out, stride);
    run.report.same(kind, &out, &wanted, 0, || format!("dc {dc} level {level} stride {stride}"));
}
