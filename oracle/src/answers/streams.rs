//! Streams of a plane of two blocks, one above the other, that show believable
//! errors: each is read into the wrong rows, or wrongly refused, by one of them.

use crate::gen::streams::Bits;

pub struct Chosen {
    pub dc: Vec<u8>,
    pub ac: Vec<u8>,
    pub place: usize,
    pub preset: usize,
    pub dc_shift: u32,
}

/// Codes: a value's number, a run's length, or bits as they stand.
enum Code {
    Value(u64),
    Run(u64),
    Bits(&'static str),
}
use Code::{Bits as Raw, Run, Value};

/// The codes, then zeros up to a byte.
fn bytes(codes: &[Code]) -> Vec<u8> {
    let mut s = Bits::default();
    for c in codes {
        match c {
            Value(n) => {
                let b = 64 - n.leading_zeros() as usize;
                s.put(0, b - 1);
                s.put(*n, b);
            }
            Run(n) => s.run(*n),
            Raw(bits) => bits.chars().for_each(|c| s.put((c == '1') as u64, 1)),
        }
    }
    s.bytes
}

/// The code of a signed number: above 0 it is 2v + 1, else -2v.
fn code(v: i64) -> Code {
    Value(if v > 0 { 2 * v as u64 + 1 } else { (-2 * v) as u64 })
}

const ZERO: Code = Raw("11");

/// Eight bytes of zeros: no code that begins in the first two bits of them is good.
fn zeros() -> Vec<u8> {
    vec![0; 8]
}

pub fn chosen() -> Vec<Chosen> {
    let mut all = vec![];
    let mut put = |dc: Vec<u8>, ac: Vec<u8>, place: usize, dc_shift: u32| {
        all.push(Chosen { dc, ac, place, preset: 0, dc_shift });
    };
    let flat = || bytes(&[Run(128)]);
    // Past the end every bit is one.
    put(vec![], vec![], 0, 0);
    put(bytes(&[code(40)]), bytes(&[Value(3)]), 3, 0);
    // The run of an all-zero plane is read for block 0: it is transformed, and only block 1 is filled flat.
    put(vec![0x13, 0x80], vec![0x80, 0x80], 1, 0);
    put(vec![0x00, 0x80, 0xE0], vec![0x80, 0x80], 1, 4);
    // A zero step may be `10` as well as `11`.
    put(vec![0b1010_0000], flat(), 0, 0);
    put(bytes(&[code(100), Raw("10")]), flat(), 0, 0);
    // The preview wraps; the flat block is clamped.
    put(bytes(&[code(1020), ZERO]), flat(), 0, 0);
    put(bytes(&[code(-1100), code(2200)]), flat(), 3, 0);
    // The prediction goes on into the lower row, and wraps.
    put(bytes(&[code(80), code(-500)]), flat(), 2, 0);
    put(bytes(&[code(30000), code(30000)]), flat(), 0, 0);
    // 54 zeros are read, 55 are refused: the first code, the second, and the one behind the last.
    put([&[0; 6][..], &[1, 0xFF]].concat(), flat(), 0, 0);
    put(vec![0; 7], flat(), 0, 0);
    put([&bytes(&[code(3)])[..], &zeros()].concat(), flat(), 0, 0);
    put([&bytes(&[code(3), code(2)])[..], &zeros()].concat(), flat(), 0, 0);
    put(bytes(&[ZERO, ZERO]), [&[0; 6][..], &[1]].concat(), 0, 0);
    put(bytes(&[ZERO, ZERO]), vec![0; 7], 0, 0);
    put(bytes(&[ZERO, ZERO]), vec![0; 6], 0, 0);
    put(bytes(&[code(9), ZERO]), vec![0x80, 0, 0, 0, 0, 0, 0, 0x7F], 0, 0);
    put(bytes(&[code(9), ZERO]), vec![0x80, 0, 0, 0, 0, 0, 0], 0, 0);
    put(bytes(&[code(9), ZERO]), [&bytes(&[Run(64), Value(5)])[..], &zeros()].concat(), 0, 0);
    put(bytes(&[code(9), ZERO]), [&flat()[..], &zeros()].concat(), 0, 0);
    // An AC value at place 0: a zero step keeps it, any other replaces it, also one that is cut to 0.
    put(bytes(&[ZERO, ZERO]), bytes(&[code(200), Run(127)]), 0, 0);
    put(bytes(&[code(7), ZERO]), bytes(&[code(200), Run(63), code(-90), Run(63)]), 0, 0);
    put(vec![0x00, 0x00, 0x40, 0x00, 0x18], bytes(&[code(200), Run(127)]), 0, 0);
    put(bytes(&[code(2), ZERO]), bytes(&[code(200), Run(127)]), 0, 15);
    // Values are cut to 16 bits; one that is cut to 0 is a symbol all the same.
    put(bytes(&[Value(65537), ZERO]), bytes(&[Run(1), Value(65541), Run(126)]), 0, 0);
    put(bytes(&[code(15), ZERO]), bytes(&[Run(64), Value(131072), Run(63)]), 1, 0);
    // Runs: one for each block leaves none flat, one across both leaves the lower flat, and the rest of a run is dropped.
    put(bytes(&[code(15), ZERO]), bytes(&[Run(64), Run(64)]), 1, 0);
    put(bytes(&[code(15), ZERO]), bytes(&[Run(65), Run(63)]), 1, 0);
    put(bytes(&[code(15), ZERO]), bytes(&[Run(63), code(-5), Run(64)]), 1, 0);
    put(bytes(&[code(15), ZERO]), bytes(&[Run(3), code(12), Run(300)]), 2, 1);
    put(bytes(&[code(15), ZERO]), bytes(&[Run((1 << 56) - 1)]), 1, 0);
    all
}
