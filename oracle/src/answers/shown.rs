//! Records of 320 bytes: shown rows by the pictures' lengths, as parts of two
//! pictures that follow from their first samples, and shown time.

use crate::gen::Rng;
use crate::questions::{self, SLICES_MAX, STRIDE_MAX};

/// The samples of the longest picture: a slice more than may be shown, at stride 8.
const MOST: usize = (SLICES_MAX + 1) * 128;

#[derive(Clone, Copy)]
struct Call {
    kind: u8,
    first: [u16; 2],
    new: usize,
    held: usize,
    stride: usize,
    slice: usize,
    verdict: u32,
}

pub fn list(rng: &mut Rng) -> (Vec<u8>, usize) {
    let mut out = Vec::new();
    let mut call = Call { kind: 0, first: [0; 2], new: 0, held: 0, stride: 0, slice: 0, verdict: 0 };
    // The numbers alone: lengths that end with the slice, a sample before it, or far behind it.
    for stride in [0, 4, 8, 12, 16, 1920, 4088, 4096, 4104, 7672, 7676, STRIDE_MAX, STRIDE_MAX + 8, 1 << 60] {
        for slice in [0, 1, 67, 268, 269, 270, 271, usize::MAX] {
            let end = slice.wrapping_add(1).wrapping_mul(16).wrapping_mul(stride);
            let lengths = [(end, end), (end, end.wrapping_sub(1)), (end.wrapping_sub(1), end), (usize::MAX, 1 << 40)];
            for (new, held) in lengths {
                let verdict = rng.pick(&[0, 0, 1, 8, 14, u32::MAX]);
                call = Call { new, held, stride, slice, verdict, ..call };
                put(&mut out, call);
            }
        }
    }
    // The rows themselves, at both depths.
    for kind in [1, 2] {
        let strides: &[usize] = if kind == 1 { &[8, 16] } else { &[8] };
        for stride in strides.iter().copied() {
            for slice in 0..4 {
                for verdict in [0, 8] {
                    for (more, less) in [(0, 0), (1, 0), (0, 1), (16 * stride, 0)] {
                        let end = (slice + 1) * 16 * stride;
                        let first = [rng.next() as u16, rng.next() as u16];
                        put(
                            &mut out,
                            Call { kind, first, new: end + more - less, held: end + less, stride, slice, verdict },
                        );
                        put(
                            &mut out,
                            Call { kind, first, new: end + less, held: end + more - less, stride, slice, verdict },
                        );
                    }
                }
            }
        }
        for slice in [268, 269, 270] {
            for verdict in [0, u32::MAX] {
                let first = [rng.next() as u16, rng.next() as u16];
                put(&mut out, Call { kind, first, new: MOST, held: MOST, stride: 8, slice, verdict });
            }
        }
    }
    for verdict in [0, 1, 2, 8, 14, 256, u32::MAX] {
        for _ in 0..2 {
            let (new, held) = (rng.next() as usize, rng.next() as usize);
            put(&mut out, Call { kind: 3, new, held, stride: 0, slice: 0, verdict, ..call });
        }
    }
    let count = out.len() / 320;
    (out, count)
}

/// Sample k of a picture.
fn sample(first: u16, k: usize) -> u16 {
    first.wrapping_add((k as u16).wrapping_mul(40503))
}

fn put(out: &mut Vec<u8>, c: Call) {
    let start = out.len();
    let taken = c.verdict == 0;
    let number = if c.kind == 3 { 0 } else { questions::shown(c.new, c.held, c.stride, c.slice) };
    let (place, len) = match (c.kind, number) {
        (3, _) => (if taken { c.new } else { c.held }, 0),
        (_, 0) => (c.slice * 16 * c.stride, 16 * c.stride),
        _ => (0, 0),
    };
    out.extend([c.kind, number as u8, (number == 0 && taken) as u8, 0]);
    c.first.iter().for_each(|x| out.extend(x.to_le_bytes()));
    for n in [c.new, c.held, c.stride, c.slice, place, len, c.verdict as usize] {
        out.extend((n as u64).to_le_bytes());
    }
    let first = if taken { c.first[0] } else { c.first[1] };
    let rows = (place..place + len).map(|k| sample(first, k));
    match c.kind {
        1 => out.extend(rows.map(|x| (x >> 8) as u8)),
        2 => out.extend(rows.flat_map(u16::to_le_bytes)),
        _ => (),
    }
    out.resize(start + 320, 0);
}
