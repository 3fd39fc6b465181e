//! Records of 50 bytes: operation, number, two rows, the answer's row.

use crate::gen::{self, Rng, EXTREMES, EXTREMES32};
use reference::api::lanes::{self, PATTERNS, SHIFTS, SHUFFLES, TWO};
use reference::api::Path::Sse2;

pub fn list(rng: &mut Rng) -> (Vec<u8>, usize) {
    let mut out = Vec::new();
    for round in 0..20 {
        for (op, name) in TWO.iter().enumerate() {
            let (a, b) = (gen::row(rng), gen::row(rng));
            put(&mut out, op, 0, &narrow(a), &narrow(b), &narrow(lanes::two(Sse2, name, a, b)));
        }
        for (k, name) in SHIFTS.iter().enumerate() {
            let (a, n) = (gen::row(rng), rng.below(16));
            put(&mut out, 10 + k, n, &narrow(a), &[0; 16], &narrow(lanes::shift(Sse2, name, a, n as u32)));
        }
        let a = gen::row(rng);
        put(&mut out, 12, 0, &narrow(a), &[0; 16], &narrow(lanes::abs16(Sse2, a)));
        let imm = PATTERNS[round % PATTERNS.len()];
        for (k, name) in SHUFFLES.iter().enumerate() {
            let a = gen::row(rng);
            put(&mut out, 13 + k, imm as usize, &narrow(a), &[0; 16], &narrow(lanes::shuffle(Sse2, name, a, imm)));
        }
        let (a, b) = (gen::row(rng), gen::row(rng));
        put(&mut out, 16, 0, &narrow(a), &narrow(b), &narrow(lanes::unpacklo32(Sse2, a, b)));
        let (x, y, n) = (gen::row32(rng), gen::row32(rng), rng.below(32));
        put(&mut out, 20, 0, &wide(x), &wide(y), &wide(lanes::add32(Sse2, x, y)));
        put(&mut out, 21, 0, &wide(x), &wide(y), &wide(lanes::sub32(Sse2, x, y)));
        put(&mut out, 22, n, &wide(x), &[0; 16], &wide(lanes::srai32(Sse2, x, n as u32)));
        put(&mut out, 23, imm as usize, &wide(x), &[0; 16], &wide(lanes::shuffle32(Sse2, x, imm)));
        put(&mut out, 30, 0, &narrow(a), &narrow(b), &wide(lanes::madd(Sse2, a, b)));
        put(&mut out, 31, 0, &wide(x), &wide(y), &narrow(lanes::packs32(Sse2, x, y)));
    }
    made(&mut out, rng);
    let count = out.len() / 50;
    (out, count)
}

/// From one number or row to another kind: extremes, then any.
fn made(out: &mut Vec<u8>, rng: &mut Rng) {
    for k in 0..48 {
        let v = EXTREMES.get(k).copied().unwrap_or_else(|| rng.i16());
        put(out, 40, 0, &narrow([v, 1, 2, 3, 4, 5, 6, 7]), &[0; 16], &narrow(lanes::splat(Sse2, v)));
        let v = EXTREMES32.get(k).copied().unwrap_or_else(|| rng.next() as i32);
        put(out, 41, 0, &wide([v, 1, 2, 3]), &[0; 16], &wide(lanes::splat32(Sse2, v)));
        // Eight extremes in a row, from each of them on.
        let a = match k < EXTREMES.len() {
            true => core::array::from_fn(|i| EXTREMES[(k + i) % EXTREMES.len()]),
            false => gen::row(rng),
        };
        put(out, 42, 0, &narrow(a), &[0; 16], &narrow(lanes::load_u(Sse2, &a.map(|x| x as u16))));
        let mut bytes = [0; 16];
        bytes[..8].copy_from_slice(&lanes::packus8(Sse2, a));
        put(out, 43, 0, &narrow(a), &[0; 16], &bytes);
    }
}

fn put(out: &mut Vec<u8>, op: usize, n: usize, a: &[u8; 16], b: &[u8; 16], r: &[u8; 16]) {
    out.extend([op as u8, n as u8]);
    out.extend(a);
    out.extend(b);
    out.extend(r);
}

fn narrow(v: [i16; 8]) -> [u8; 16] {
    core::array::from_fn(|i| v[i / 2].to_le_bytes()[i % 2])
}

fn wide(v: [i32; 4]) -> [u8; 16] {
    core::array::from_fn(|i| v[i / 4].to_le_bytes()[i % 4])
}
