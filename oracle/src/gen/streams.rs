//! Streams built from the grammar of the codes, and damage to streams.

use super::Rng;

/// Bits, highest first.
#[derive(Clone, Default)]
pub struct Bits {
    pub bytes: Vec<u8>,
    pub len: usize,
}

impl Bits {
    pub fn put(&mut self, v: u64, n: usize) {
        for k in (0..n).rev() {
            if self.len.is_multiple_of(8) {
                self.bytes.push(0);
            }
            let bit = ((v >> k) & 1) as u8;
            *self.bytes.last_mut().unwrap() |= bit << (7 - self.len % 8);
            self.len += 1;
        }
    }

    /// Zeros, then one more than twice as many bits: the end of a code.
    fn tail(&mut self, rng: &mut Rng, z: usize) {
        self.put(0, z);
        self.put(1, 1);
        self.put(rng.next(), z + 1);
    }

    pub fn value(&mut self, rng: &mut Rng, z: usize) {
        self.put(0, 1);
        self.tail(rng, z);
    }

    pub fn long_run(&mut self, rng: &mut Rng, z: usize) {
        self.put(0b10, 2);
        self.tail(rng, z);
    }

    pub fn run(&mut self, n: u64) {
        let b = 64 - n.leading_zeros() as usize;
        self.put(1, 1);
        self.put(0, b - 1);
        self.put(n, b);
    }

    /// Fills the last byte up.
    pub fn align(&mut self, rng: &mut Rng) {
        let n = (8 - self.len % 8) % 8;
        let v = if rng.once_in(4) { rng.next() } else { 0 };
        self.put(v, n);
    }
}

/// Leading zeros of a code: mostly few, at times around the limit of 54.
fn zeros(rng: &mut Rng, wild: bool) -> usize {
    match rng.below(if wild { 40 } else { 400 }) {
        0 => rng.between(50, 56),
        1 => rng.below(57),
        2 | 3 => rng.between(10, 20),
        _ => rng.below(8),
    }
}

/// The DC codes of `blocks` blocks.
pub fn dc_codes(rng: &mut Rng, out: &mut Bits, blocks: usize) {
    let wild = rng.once_in(3);
    for _ in 0..blocks {
        match rng.below(8) {
            0 | 1 => out.put(0b11, 2),
            2 => out.put(0b10, 2),
            _ => {
                let z = zeros(rng, wild);
                out.value(rng, z);
            }
        }
    }
    out.align(rng);
}

/// AC codes until `places` places are covered.
pub fn ac_codes(rng: &mut Rng, out: &mut Bits, places: usize) {
    let wild = rng.once_in(3);
    let dense = rng.once_in(3);
    let mut at = 0u64;
    while at < places as u64 {
        let n = match rng.below(if dense { 40 } else { 10 }) {
            0 => rng.pick(&[1, 2, 3, 62, 63, 64, 65, 66, 127, 128, 129, 191, 192]),
            1 => rng.between(1, 300) as u64,
            2 => rng.between(1, 20) as u64,
            3 if rng.once_in(10) => {
                let z = zeros(rng, true);
                out.long_run(rng, z);
                // Its length is not known here: codes for the rest follow it.
                at += 1;
                continue;
            }
            4 if rng.once_in(20) => 1 << rng.between(10, 55),
            // Just to the end of the block, or over it.
            5 => 64 - at % 64 + rng.below(2) as u64,
            _ => {
                let z = zeros(rng, wild);
                out.value(rng, z);
                at += 1;
                continue;
            }
        };
        out.run(n);
        at += n;
    }
    out.align(rng);
}

/// Damage: one to four bits flipped, a cut, a stretch of one byte.
pub fn damage(rng: &mut Rng, s: &mut Vec<u8>) {
    match rng.below(5) {
        0 => s.truncate(rng.below(s.len() + 1)),
        1 => {
            if !s.is_empty() {
                let from = rng.below(s.len());
                let to = rng.between(from, s.len());
                let b = rng.pick(&[0x00, 0x00, 0xFF, 0x80, 0x01]);
                s[from..to].fill(b);
            }
        }
        _ => {
            for _ in 0..rng.between(1, 4) {
                if !s.is_empty() {
                    let at = rng.below(s.len());
                    s[at] ^= 1 << rng.below(8);
                }
            }
        }
    }
}

/// A plane to be read: settings, both streams with the places where they begin,
/// and what the rows hold before.
#[derive(Clone)]
pub struct Reading<T> {
    pub stride: usize,
    pub place: usize,
    pub preset: usize,
    pub dc_shift: u32,
    pub dc: Vec<u8>,
    pub dc_at: usize,
    pub ac: Vec<u8>,
    pub ac_at: usize,
    pub rows: Vec<T>,
}

impl<T> Reading<T> {
    /// Orders inputs by how much of them there is to look at.
    pub fn size(&self) -> usize {
        100 * self.stride + self.dc.len() + self.ac.len()
    }

    pub fn text(&self) -> String {
        format!(
            "stride {} place {} preset {} DC shift {} DC {:02x?} at {} AC {:02x?} at {}",
            self.stride, self.place, self.preset, self.dc_shift, self.dc, self.dc_at, self.ac, self.ac_at
        )
    }
}

/// A stream of `n` bytes that nobody wrote.
fn foreign(rng: &mut Rng, n: usize) -> Vec<u8> {
    let n = rng.below(n + 1);
    match rng.below(5) {
        0 => vec![0x00; n],
        1 => vec![0xFF; n],
        2 => (0..n).map(|_| rng.pick(&[0x00, 0x00, 0x00, 0x00, 0x01, 0x80, 0x20, 0xFF])).collect(),
        _ => rng.bytes(n),
    }
}

/// Junk in front of a stream; at times a start past its end.
fn placed(rng: &mut Rng, s: &[u8]) -> (Vec<u8>, usize) {
    match rng.below(8) {
        0 => (s.to_vec(), s.len() + rng.below(20)),
        1..=4 => (s.to_vec(), 0),
        _ => {
            let n = rng.between(1, 20);
            let mut all = rng.bytes(n);
            all.extend_from_slice(s);
            if rng.once_in(2) {
                let n = rng.below(20);
                all.extend(rng.bytes(n));
            }
            (all, n)
        }
    }
}

/// A plane to be read, with streams of every origin: `own` writes a plane's own.
pub fn reading<T: super::planes::Made>(
    rng: &mut Rng,
    own: impl FnOnce(&mut Rng, &Reading<T>) -> (Vec<u8>, Vec<u8>),
) -> Reading<T> {
    let stride = super::planes::stride(rng);
    let dc_shift = if rng.once_in(2) { 0 } else { rng.below(16) as u32 };
    let mut r = Reading {
        stride,
        place: rng.below(4),
        preset: rng.below(25),
        dc_shift,
        dc: vec![],
        dc_at: 0,
        ac: vec![],
        ac_at: 0,
        rows: (0..16 * stride).map(|_| T::any(rng)).collect(),
    };
    let blocks = stride / 4;
    let (mut dc, mut ac) = match rng.below(5) {
        0 | 1 => {
            let mut s = own(rng, &r);
            match rng.below(3) {
                0 => damage(rng, &mut s.0),
                1 => damage(rng, &mut s.1),
                _ => {}
            }
            s
        }
        2 => (foreign(rng, 4 * blocks), foreign(rng, 40 * blocks)),
        _ => {
            let (mut d, mut a) = (Bits::default(), Bits::default());
            dc_codes(rng, &mut d, blocks);
            ac_codes(rng, &mut a, 64 * blocks);
            (d.bytes, a.bytes)
        }
    };
    if rng.once_in(10) {
        damage(rng, &mut dc);
        damage(rng, &mut ac);
    }
    (r.dc, r.dc_at) = placed(rng, &dc);
    (r.ac, r.ac_at) = placed(rng, &ac);
    r
}
