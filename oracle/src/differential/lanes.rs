//! Lane operations: unary over all 65,536 values, binary on extremes x extremes
//! and random rows.

use super::Run;
use crate::gen::{self, EXTREMES, EXTREMES32};
use crate::ours;
use crate::report::Kind;
use reference::api::lanes::{self, PATTERNS, SHIFTS, SHUFFLES, TWO, V16, V32};
use reference::api::Path;
use std::fmt::Debug;

pub fn run(run: &mut Run) {
    let two: Vec<Two> = TWO.iter().map(|op| Two { kind: run.report.kind(format!("lanes: {op}")), op }).collect();
    for op in &two {
        op.fixed(run);
    }
    unary(run);
    shuffles(run);
    wide(run);
    while run.more() {
        for _ in 0..200 {
            for op in &two {
                let (a, b) = (gen::row(&mut run.rng), gen::row(&mut run.rng));
                op.check(run, a, b);
            }
        }
        shuffles(run);
        wide(run);
    }
}

/// Compares what we and both paths of the Rust make of one input.
fn three<A: PartialEq + Debug>(
    run: &mut Run,
    kind: Kind,
    ours: A,
    rust: impl Fn(Path) -> A,
    input: impl Fn() -> String,
) {
    let wanted = rust(Path::Sse2);
    run.report.same(kind, &ours, &wanted, 0, &input);
    run.report.same(kind, &rust(Path::Portable), &wanted, 0, || format!("the Rust's portable path: {}", input()));
}

struct Two {
    kind: Kind,
    op: &'static str,
}

impl Two {
    fn check(&self, run: &mut Run, a: V16, b: V16) {
        three(
            run,
            self.kind,
            ours::lanes::two(self.op, a, b),
            |p| lanes::two(p, self.op, a, b),
            || format!("{} {a:?} {b:?}", self.op),
        );
    }

    /// Every extreme with every extreme, in every lane.
    fn fixed(&self, run: &mut Run) {
        for x in EXTREMES {
            for shift in 0..EXTREMES.len() {
                self.check(run, [x; 8], core::array::from_fn(|k| EXTREMES[(shift + k) % EXTREMES.len()]));
            }
        }
    }
}

/// Operations of one row, over all lane values, eight at a time.
fn unary(run: &mut Run) {
    let abs = run.report.kind("lanes: abs16, all values");
    let pack = run.report.kind("lanes: packus8, all values");
    let splat = run.report.kind("lanes: splat, all values");
    let load = run.report.kind("lanes: load_u, all values");
    let shifts: Vec<(Kind, &str)> =
        SHIFTS.iter().map(|op| (run.report.kind(format!("lanes: {op}, all values, 0 to 15")), *op)).collect();
    for base in 0..8192u32 {
        let u: [u16; 8] = core::array::from_fn(|k| (8 * base) as u16 + k as u16);
        let a: V16 = u.map(|x| x as i16);
        three(run, abs, ours::lanes::abs16(a), |p| lanes::abs16(p, a), || format!("{a:?}"));
        three(run, pack, ours::lanes::packus8(a), |p| lanes::packus8(p, a), || format!("{a:?}"));
        three(run, load, ours::lanes::load_u(&u), |p| lanes::load_u(p, &u), || format!("{u:?}"));
        for x in a {
            three(run, splat, ours::lanes::splat(x), |p| lanes::splat(p, x), || format!("{x}"));
        }
        for n in 0..16 {
            for (kind, op) in &shifts {
                three(
                    run,
                    *kind,
                    ours::lanes::shift(op, a, n),
                    |p| lanes::shift(p, op, a, n),
                    || format!("{a:?} by {n}"),
                );
            }
        }
    }
}

/// Shuffles: each pattern; the SSE2 path has only those of dct.rs.
fn shuffles(run: &mut Run) {
    let path = |imm: u8| if PATTERNS.contains(&imm) { Path::Sse2 } else { Path::Portable };
    for op in SHUFFLES {
        let kind = run.report.kind(format!("shuffles: {op}, all patterns"));
        for imm in 0..=255 {
            let a = gen::row(&mut run.rng);
            let rust = |p: Path| lanes::shuffle(if p == Path::Sse2 { path(imm) } else { p }, op, a, imm);
            three(run, kind, ours::shuffles::shuffle(op, a, imm), rust, || format!("{a:?} by {imm:#x}"));
        }
    }
    let kind = run.report.kind("shuffles: shuffle32, all patterns");
    for imm in 0..=255 {
        let a = gen::row32(&mut run.rng);
        let rust = |p: Path| lanes::shuffle32(if p == Path::Sse2 { path(imm) } else { p }, a, imm);
        three(run, kind, ours::shuffles::shuffle32(a, imm), rust, || format!("{a:?} by {imm:#x}"));
    }
    let kind = run.report.kind("shuffles: unpacklo32");
    let (a, b) = (gen::row(&mut run.rng), gen::row(&mut run.rng));
    three(run, kind, ours::shuffles::unpacklo32(a, b), |p| lanes::unpacklo32(p, a, b), || format!("{a:?} {b:?}"));
    let kind = run.report.kind("shuffles: nonzero_mask");
    let zz = gen::planes::coefficients(&mut run.rng);
    three(run, kind, ours::shuffles::nonzero_mask(&zz), |p| lanes::nonzero_mask(p, &zz), || format!("{zz:?}"));
}

/// Operations with 32-bit lanes.
fn wide(run: &mut Run) {
    let madd = run.report.kind("lanes: madd");
    for _ in 0..40 {
        let (a, b) = (gen::row(&mut run.rng), gen::row(&mut run.rng));
        three(run, madd, ours::lanes::madd(a, b), |p| lanes::madd(p, a, b), || format!("{a:?} {b:?}"));
    }
    let [add, sub, pack] = ["add32", "sub32", "packs32"].map(|op| run.report.kind(format!("lanes: {op}")));
    let [shift, splat] = ["srai32", "splat32"].map(|op| run.report.kind(format!("lanes: {op}")));
    for x in EXTREMES32 {
        three(run, splat, ours::lanes::splat32(x), |p| lanes::splat32(p, x), || format!("{x}"));
        for pair in [[[x; 4], gen::row32(&mut run.rng)], [gen::row32(&mut run.rng), gen::row32(&mut run.rng)]] {
            let [a, b]: [V32; 2] = pair;
            three(run, add, ours::lanes::add32(a, b), |p| lanes::add32(p, a, b), || format!("{a:?} {b:?}"));
            three(run, sub, ours::lanes::sub32(a, b), |p| lanes::sub32(p, a, b), || format!("{a:?} {b:?}"));
            three(run, pack, ours::lanes::packs32(a, b), |p| lanes::packs32(p, a, b), || format!("{a:?} {b:?}"));
            let n = run.rng.below(32) as u32;
            three(run, shift, ours::lanes::srai32(a, n), |p| lanes::srai32(p, a, n), || format!("{a:?} by {n}"));
        }
    }
}
