//! Starts, lengths, strides and rows around their limits, for every kind of call.
//! All of it is fixed, so all of it is run, whatever the time.

use super::Run;
use crate::calls::{Buffers, Calls, Plane, Rust};
use crate::gen::planes::{self, Made};
use crate::ours::planes::GUARDED;
use crate::questions::{self, Settings, AC_READ_MAX, DC_READ_MAX, STARTS, START_MAX, STRIDE_MAX};
use reference::api::Path;

const SETTINGS: Settings = Settings { preset: 3, dc_shift: 1 };

pub fn run(run: &mut Run) {
    let rust = Rust::new(Path::Sse2);
    both::<u8>(run, &rust, "8-bit");
    both::<u16>(run, &rust, "10-bit");
    looks(run, &rust);
}

fn both<T: Made>(run: &mut Run, rust: &Rust, depth: &str) {
    for slice in [false, true] {
        let name = format!("{depth} {}", if slice { "slices" } else { "planes" });
        coding::<T>(run, rust, slice, &name);
        reading::<T>(run, rust, slice, &name);
        shapes::<T>(run, rust, slice, &name);
    }
}

/// A plane of a stride, or two of them as a slice.
fn any<T: Made>(run: &mut Run, slice: bool, stride: usize) -> Vec<Plane<T>> {
    (0..1 + slice as usize).map(|place| (place, stride, planes::samples(&mut run.rng, stride))).collect()
}

fn code<T: Made>(who: &impl Calls, slice: bool, planes: &[Plane<T>], b: &mut Buffers) -> u32 {
    if slice {
        who.code_slice(SETTINGS, planes, b)
    } else {
        who.code_plane(SETTINGS, &planes[0], b)
    }
}

fn read<T: Made>(who: &impl Calls, slice: bool, planes: &mut [Plane<T>], b: &mut Buffers) -> u32 {
    if slice {
        who.read_slice(SETTINGS, planes, b)
    } else {
        who.read_plane(SETTINGS, &mut planes[0], b)
    }
}

fn text<T>(planes: &[Plane<T>], b: &Buffers) -> String {
    let shapes: Vec<_> = planes.iter().map(|p| (p.1, p.2.len())).collect();
    let (d, a) = (b.dc.len(), b.ac.len());
    format!("planes (stride, samples) {shapes:?}, DC from {} of {d}, AC from {} of {a}", b.dc_at, b.ac_at)
}

/// One coding call: the number, the positions and every byte of both buffers.
fn coded<T: Made>(run: &mut Run, rust: &Rust, slice: bool, name: &str, planes: &[Plane<T>], before: Buffers) {
    let kind = run.report.kind(format!("limits: {name} coded, ours"));
    let (mut b, mut c) = (before.clone(), before);
    let wanted = code(rust, slice, planes, &mut b);
    let found = code(&GUARDED, slice, planes, &mut c);
    run.report.check(kind, found == wanted && b == c, 0, || format!("{found}, wanted {wanted}: {}", text(planes, &c)));
}

/// One reading call: the number, the positions, every sample.
fn unpacked<T: Made>(run: &mut Run, rust: &Rust, slice: bool, name: &str, planes: &[Plane<T>], before: &Buffers) {
    let kind = run.report.kind(format!("limits: {name} read, ours"));
    let (mut p, mut b) = (planes.to_vec(), before.clone());
    let (mut q, mut c) = (planes.to_vec(), before.clone());
    let wanted = read(rust, slice, &mut p, &mut b);
    let found = read(&GUARDED, slice, &mut q, &mut c);
    let same = found == wanted && p == q && b == c;
    run.report.check(kind, same, 0, || format!("{found}, wanted {wanted}: {}", text(planes, before)));
}

/// Questions 6 and 7: each start, with room to the byte and with a byte too few. Where no memory is so long, in a short buffer.
fn coding<T: Made>(run: &mut Run, rust: &Rust, slice: bool, name: &str) {
    let planes = any::<T>(run, slice, 8);
    let (most_dc, most_ac) = questions::sizes(8 * planes.len());
    for at in STARTS {
        for short in [0, 1] {
            let len = |need: usize| if at > START_MAX + 1 { need } else { at + need - short };
            let (dc, ac) = (vec![0x5A; len(most_dc)], vec![0x5A; 3 + most_ac]);
            coded(run, rust, slice, name, &planes, Buffers { dc, dc_at: at, ac, ac_at: 3 });
            let (dc, ac) = (vec![0x5A; 3 + most_dc], vec![0x5A; len(most_ac)]);
            coded(run, rust, slice, name, &planes, Buffers { dc, dc_at: 3, ac, ac_at: at });
        }
    }
}

/// Starts that a stream of so many bytes is read from: those around the limit, and those around its end.
fn starts(len: usize) -> impl Iterator<Item = usize> {
    STARTS.into_iter().chain([len.saturating_sub(1), len, len + 1])
}

/// Lengths around a limit.
fn lengths(most: usize) -> [usize; 4] {
    [3, most - 1, most, most + 1]
}

/// Question 7: each start in streams of each length, of DC and then of AC. The limits are about the whole stream.
fn reading<T: Made>(run: &mut Run, rust: &Rust, slice: bool, name: &str) {
    let planes = any::<T>(run, slice, 8);
    let short = run.rng.bytes(3);
    for len in lengths(DC_READ_MAX) {
        let mut b = Buffers { dc: run.rng.bytes(len), dc_at: 0, ac: short.clone(), ac_at: 0 };
        for at in starts(len) {
            b.dc_at = at;
            unpacked(run, rust, slice, name, &planes, &b);
        }
    }
    for len in lengths(AC_READ_MAX) {
        let mut b = Buffers { dc: short.clone(), dc_at: 0, ac: run.rng.bytes(len), ac_at: 0 };
        for at in starts(len) {
            b.ac_at = at;
            unpacked(run, rust, slice, name, &planes, &b);
        }
    }
}

/// Questions 4 to 6 at the smallest and the largest stride and past them: rows and room to the sample and the byte.
fn shapes<T: Made>(run: &mut Run, rust: &Rust, slice: bool, name: &str) {
    for stride in [8, STRIDE_MAX - 8, STRIDE_MAX, STRIDE_MAX + 8] {
        let mut planes = any::<T>(run, slice, stride);
        let (dc, ac) = questions::sizes(stride * planes.len());
        let room = |d: usize, a: usize| Buffers { dc: vec![0x5A; dc - d], dc_at: 0, ac: vec![0x5A; ac - a], ac_at: 0 };
        let b = Buffers { dc: run.rng.bytes(2 * stride), dc_at: 0, ac: run.rng.bytes(4 * stride), ac_at: 0 };
        coded(run, rust, slice, name, &planes, room(0, 0));
        coded(run, rust, slice, name, &planes, room(1, 0));
        coded(run, rust, slice, name, &planes, room(0, 1));
        unpacked(run, rust, slice, name, &planes, &b);
        let last = planes.len() - 1;
        planes[last].2.pop();
        coded(run, rust, slice, name, &planes, room(0, 0));
        unpacked(run, rust, slice, name, &planes, &b);
    }
}

/// Previews and block reports: strides and outputs, starts and lengths.
fn looks(run: &mut Run, rust: &Rust) {
    for stride in [8, STRIDE_MAX, STRIDE_MAX + 8] {
        let b = Buffers { dc: run.rng.bytes(stride), dc_at: 1, ac: run.rng.bytes(stride), ac_at: 1 };
        for short in [0, 1] {
            preview(run, rust, stride, (stride / 8 - short, stride / 8), &b);
            preview(run, rust, stride, (stride / 8, stride / 8 - short), &b);
            report(run, rust, stride, stride / 4 - short, &b);
        }
    }
    for len in lengths(DC_READ_MAX) {
        let mut b = Buffers { dc: run.rng.bytes(len), dc_at: 0, ac: vec![0xFF; AC_READ_MAX + 1], ac_at: usize::MAX };
        for at in starts(len) {
            b.dc_at = at;
            preview(run, rust, 16, (2, 2), &b);
        }
    }
    for len in lengths(AC_READ_MAX) {
        let mut b = Buffers { dc: vec![0xFF; DC_READ_MAX + 1], dc_at: usize::MAX, ac: run.rng.bytes(len), ac_at: 0 };
        for at in starts(len) {
            b.ac_at = at;
            report(run, rust, 16, 4, &b);
        }
    }
}

fn preview(run: &mut Run, rust: &Rust, stride: usize, (m, n): (usize, usize), before: &Buffers) {
    let kind = run.report.kind("limits: previews, ours");
    let answer = |who: &dyn Fn([&mut [u8]; 2], &mut Buffers) -> u32| {
        let (mut x, mut y, mut b) = (vec![7; m], vec![7; n], before.clone());
        let number = who([&mut x, &mut y], &mut b);
        (number, x, y, b)
    };
    let wanted = answer(&|out, b| rust.preview(1, 2, stride, out, b));
    let found = answer(&|out, b| GUARDED.preview(1, 2, stride, out, b));
    run.report.check(kind, found == wanted, 0, || {
        format!("{}, wanted {}: {}", found.0, wanted.0, text::<u8>(&[(2, stride, vec![])], before))
    });
}

fn report(run: &mut Run, rust: &Rust, stride: usize, n: usize, before: &Buffers) {
    let kind = run.report.kind("limits: block reports, ours");
    let answer = |who: &dyn Fn(&mut [u8], &mut Buffers) -> u32| {
        let (mut x, mut b) = (vec![7; n], before.clone());
        let number = who(&mut x, &mut b);
        (number, x, b)
    };
    let wanted = answer(&|out, b| rust.block_report(stride, out, b));
    let found = answer(&|out, b| GUARDED.block_report(stride, out, b));
    run.report.check(kind, found == wanted, 0, || {
        format!("{}, wanted {}: {}", found.0, wanted.0, text::<u8>(&[(0, stride, vec![])], before))
    });
}
