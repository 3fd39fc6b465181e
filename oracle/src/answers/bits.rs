//! Records of 48 bytes: stream kind, length, bit position, the code read there
//! (head bit, number, position behind it), the stream; or two codes, how often
//! they are written in turn, the stream.

use crate::gen::streams::{self, Bits};
use crate::gen::Rng;
use reference::api::bits::{self, AcSymbol, Writer};

/// The longest stream of a record.
const MOST: usize = 28;

pub fn list(rng: &mut Rng) -> (Vec<u8>, usize) {
    let mut out = Vec::new();
    for z in 0..58 {
        for before in [0, 3, 7, 13] {
            for head in 0..3 {
                let mut s = Bits::default();
                s.put(rng.next(), before);
                match head {
                    0 => s.value(rng, z),
                    1 => s.long_run(rng, z),
                    _ => s.put(0b10, 2),
                }
                both(&mut out, &s.bytes, before);
                // The same code cut: what is missing reads as ones.
                let n = rng.below(s.bytes.len() + 1);
                both(&mut out, &s.bytes[..n], before);
            }
        }
    }
    for _ in 0..400 {
        let mut s = Bits::default();
        if rng.once_in(2) {
            streams::ac_codes(rng, &mut s, 8);
        } else {
            streams::dc_codes(rng, &mut s, 8);
        }
        s.bytes.truncate(MOST);
        if rng.once_in(3) {
            streams::damage(rng, &mut s.bytes);
        }
        let at = rng.below(8 * s.bytes.len() + 80);
        both(&mut out, &s.bytes, at);
    }
    for _ in 0..400 {
        written(&mut out, rng);
    }
    let count = out.len() / 48;
    (out, count)
}

/// Two codes in turn, at most eight, as long as their stream fits: values, runs, and both; or, for the lent accumulator,
/// values and runs with values.
fn written(out: &mut Vec<u8>, rng: &mut Rng) {
    let lent = !rng.once_in(4);
    let codes: [(u8, u32, u32); 2] = std::array::from_fn(|_| {
        let kind = if lent { 2 * rng.below(2) } else { rng.below(3) };
        let (run_bits, code_bits) = [(0, 32), (31, 0), (17, 15)][kind];
        let n = rng.below(run_bits + 1);
        let run = (rng.next() & ((1 << n) - 1)) as u32;
        let n = rng.below(code_bits + 1);
        let code = (rng.next() & ((1 << n) - 1)) as u32;
        (kind as u8, run, code.max(1))
    });
    let stream = |count: usize| {
        let mut w = Writer::default();
        for (kind, run, code) in codes.iter().cycle().take(count).copied() {
            match kind {
                0 => w.put_value(code),
                1 => w.put_run(run),
                _ => w.put_run_value(run, code),
            }
        }
        w.align();
        w.bytes().to_vec()
    };
    let most = rng.between(1, 8);
    let count = (1..=most).rev().find(|n| stream(*n).len() <= 26).unwrap();
    let bytes = stream(count);
    let start = out.len();
    out.extend([2 + lent as u8, bytes.len() as u8, count as u8, rng.next() as u8]);
    for (kind, run, code) in codes {
        out.push(kind);
        out.extend(run.to_le_bytes());
        out.extend(code.to_le_bytes());
    }
    out.extend(bytes);
    out.resize(start + 48, 0);
}

/// The AC symbol and the DC code that stand at a bit.
fn both(out: &mut Vec<u8>, s: &[u8], at: usize) {
    let ac = bits::ac_symbol(s, at).map(|(x, end)| match x {
        AcSymbol::Run(n) => (1, n, end),
        AcSymbol::Value(n) => (0, n, end),
    });
    // The number of a zero step is not part of the answer.
    let dc = bits::dc_code(s, at).map(|(n, end)| match n {
        None => (1, 1, end),
        Some(n) => (0, n, end),
    });
    put(out, 0, s, at, ac);
    put(out, 1, s, at, dc);
}

/// A bad code is three zeros.
fn put(out: &mut Vec<u8>, kind: u8, s: &[u8], at: usize, code: Option<(u8, u64, usize)>) {
    let (head, number, end) = code.unwrap_or((0, 0, 0));
    out.extend([kind, s.len() as u8]);
    out.extend((at as u16).to_le_bytes());
    out.extend([head, 0, 0, 0]);
    out.extend(number.to_le_bytes());
    out.extend((end as u16).to_le_bytes());
    out.extend([0, 0]);
    let mut bytes = [0; MOST];
    bytes[..s.len()].copy_from_slice(s);
    out.extend(bytes);
}
