//! Inputs: numbers, blocks, planes, streams, frames. All follow from one seed.

pub mod frames;
pub mod planes;
pub mod streams;

/// splitmix64: small, and the same everywhere.
pub struct Rng(u64);

impl Rng {
    pub fn new(seed: u64) -> Self {
        Rng(seed)
    }

    #[inline]
    pub fn next(&mut self) -> u64 {
        self.0 = self.0.wrapping_add(0x9E37_79B9_7F4A_7C15);
        let z = (self.0 ^ (self.0 >> 30)).wrapping_mul(0xBF58_476D_1CE4_E5B9);
        let z = (z ^ (z >> 27)).wrapping_mul(0x94D0_49BB_1331_11EB);
        z ^ (z >> 31)
    }

    /// A number below `n`.
    #[inline]
    pub fn below(&mut self, n: usize) -> usize {
        ((self.next() as u128 * n as u128) >> 64) as usize
    }

    pub fn between(&mut self, low: usize, high: usize) -> usize {
        low + self.below(high - low + 1)
    }

    /// True once in `n`.
    pub fn once_in(&mut self, n: usize) -> bool {
        self.below(n) == 0
    }

    pub fn pick<T: Copy>(&mut self, from: &[T]) -> T {
        from[self.below(from.len())]
    }

    pub fn i16(&mut self) -> i16 {
        self.next() as i16
    }

    pub fn bytes(&mut self, n: usize) -> Vec<u8> {
        (0..n).map(|_| self.next() as u8).collect()
    }
}

/// Where 16-bit lane operations change their course.
pub const EXTREMES: [i16; 38] = [
    -32768, -32767, -32766, -32513, -32512, -21746, -19195, -16385, -16384, -16383, -8193, -8192, -1025, -1024, -513,
    -512, -257, -256, -255, -129, -128, -2, -1, 0, 1, 2, 127, 128, 255, 256, 512, 1023, 8192, 16383, 16384, 23170,
    32766, 32767,
];

/// Where 32-bit lane operations change their course.
#[rustfmt::skip]
pub const EXTREMES32: [i32; 22] = [
    i32::MIN, i32::MIN + 1, -0x4000_0000, -0x1_0000, -0xffff, -32769, -32768, -32767, -256, -1, 0, 1, 2, 255, 32766,
    32767, 32768, 0xffff, 0x1_0000, 0x3fff_ffff, i32::MAX - 1, i32::MAX,
];

/// One lane: any, extreme, near an extreme, or small.
pub fn lane(rng: &mut Rng) -> i16 {
    match rng.below(4) {
        0 => rng.pick(&EXTREMES),
        1 => rng.pick(&EXTREMES).wrapping_add(rng.between(0, 6) as i16 - 3),
        2 => rng.between(0, 64) as i16 - 32,
        _ => rng.i16(),
    }
}

pub fn row(rng: &mut Rng) -> [i16; 8] {
    match rng.below(3) {
        0 => core::array::from_fn(|_| rng.i16()),
        1 => core::array::from_fn(|_| rng.pick(&EXTREMES)),
        _ => core::array::from_fn(|_| lane(rng)),
    }
}

pub fn row32(rng: &mut Rng) -> [i32; 4] {
    match rng.below(3) {
        0 => core::array::from_fn(|_| rng.next() as i32),
        1 => core::array::from_fn(|_| rng.pick(&EXTREMES32)),
        _ => core::array::from_fn(|_| rng.i16() as i32 * rng.i16() as i32),
    }
}
