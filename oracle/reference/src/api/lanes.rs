//! Lane operations on plain arrays.

use super::{on, Path};
use crate::lanes::{Isa, Scalar};
use crate::simd::Native;

pub type V16 = [i16; 8];
pub type V32 = [i32; 4];

/// Operations of two rows of eight lanes.
pub const TWO: [&str; 10] = ["adds", "subs", "add16", "mulhi", "mulhi_u", "mullo", "or16", "sign16", "min16", "max16"];
/// Operations of one row and a shift.
pub const SHIFTS: [&str; 2] = ["srai16", "slli16"];
/// Shuffles of eight lanes.
pub const SHUFFLES: [&str; 3] = ["shuffle32_16", "shufflelo", "shufflehi"];
/// Shuffle patterns that both paths have: those of dct.rs. The portable path has all.
pub const PATTERNS: [u8; 9] = [0x00, 0x1b, 0x44, 0x4e, 0x55, 0xaa, 0xd8, 0xee, 0xff];

/// A path's own vector of four 32-bit lanes, from and to plain numbers.
trait Numbers: Isa {
    fn in32(v: V32) -> Self::V32;
    fn out32(v: Self::V32) -> V32;
}

impl Numbers for Scalar {
    fn in32(v: V32) -> V32 {
        v
    }
    fn out32(v: V32) -> V32 {
        v
    }
}

impl Numbers for Native {
    fn in32(v: V32) -> <Native as Isa>::V32 {
        // SAFETY: both are sixteen bytes, lane 0 first, and have no invalid values.
        unsafe { core::mem::transmute(v) }
    }
    fn out32(v: <Native as Isa>::V32) -> V32 {
        // SAFETY: as above.
        unsafe { core::mem::transmute(v) }
    }
}

macro_rules! pattern {
    ($imm:expr, $f:ident, $v:expr, [$($n:literal)*]) => {
        match $imm { $($n => S::$f::<$n>($v),)* _ => panic!("no such pattern") }
    };
}

fn two16<S: Isa>(op: &str, a: V16, b: V16) -> V16 {
    let (x, y) = (S::load(&a), S::load(&b));
    S::store(match op {
        "adds" => S::adds(x, y),
        "subs" => S::subs(x, y),
        "add16" => S::add16(x, y),
        "mulhi" => S::mulhi(x, y),
        "mulhi_u" => S::mulhi_u(x, y),
        "mullo" => S::mullo(x, y),
        "or16" => S::or16(x, y),
        "sign16" => S::sign16(x, y),
        "min16" => S::min16(x, y),
        "max16" => S::max16(x, y),
        _ => panic!("no such operation"),
    })
}

/// Two rows of eight lanes to one.
pub fn two(path: Path, op: &str, a: V16, b: V16) -> V16 {
    on!(path, S => two16::<S>(op, a, b))
}

pub fn unpacklo32(path: Path, a: V16, b: V16) -> V16 {
    on!(path, S => S::store(S::unpacklo32(S::load(&a), S::load(&b))))
}

pub fn madd(path: Path, a: V16, b: V16) -> V32 {
    on!(path, S => S::out32(S::madd(S::load(&a), S::load(&b))))
}

pub fn splat(path: Path, v: i16) -> V16 {
    on!(path, S => S::store(S::splat(v)))
}

pub fn load_u(path: Path, a: &[u16; 8]) -> V16 {
    on!(path, S => S::store(S::load_u(a)))
}

pub fn abs16(path: Path, a: V16) -> V16 {
    on!(path, S => S::store(S::abs16(S::load(&a))))
}

pub fn shift(path: Path, op: &str, a: V16, n: u32) -> V16 {
    on!(path, S => S::store(if op == "srai16" { S::srai16(S::load(&a), n) } else { S::slli16(S::load(&a), n) }))
}

pub fn add32(path: Path, a: V32, b: V32) -> V32 {
    on!(path, S => S::out32(S::add32(S::in32(a), S::in32(b))))
}

pub fn sub32(path: Path, a: V32, b: V32) -> V32 {
    on!(path, S => S::out32(S::sub32(S::in32(a), S::in32(b))))
}

pub fn srai32(path: Path, a: V32, n: u32) -> V32 {
    on!(path, S => S::out32(S::srai32(S::in32(a), n)))
}

pub fn splat32(path: Path, v: i32) -> V32 {
    on!(path, S => S::out32(S::splat32(v)))
}

pub fn packs32(path: Path, a: V32, b: V32) -> V16 {
    on!(path, S => S::store(S::packs32(S::in32(a), S::in32(b))))
}

pub fn shuffle32(path: Path, a: V32, imm: u8) -> V32 {
    fn go<S: Numbers>(a: V32, imm: u8) -> V32 {
        S::out32(pattern!(imm, shuffle32, S::in32(a), [0x00 0x1b 0x44 0x4e 0x55 0xaa 0xd8 0xee 0xff]))
    }
    match path {
        Path::Sse2 => go::<Native>(a, imm),
        Path::Portable => crate::lanes::shuffle32(a, imm),
    }
}

pub fn shuffle(path: Path, op: &str, a: V16, imm: u8) -> V16 {
    fn go<S: Isa>(op: &str, a: V16, imm: u8) -> V16 {
        let v = S::load(&a);
        S::store(match op {
            "shuffle32_16" => pattern!(imm, shuffle32_16, v, [0x00 0x1b 0x44 0x4e 0x55 0xaa 0xd8 0xee 0xff]),
            "shufflelo" => pattern!(imm, shufflelo, v, [0x00 0x1b 0x44 0x4e 0x55 0xaa 0xd8 0xee 0xff]),
            "shufflehi" => pattern!(imm, shufflehi, v, [0x00 0x1b 0x44 0x4e 0x55 0xaa 0xd8 0xee 0xff]),
            _ => panic!("no such shuffle"),
        })
    }
    match (path, op) {
        (Path::Sse2, _) => go::<Native>(op, a, imm),
        (_, "shuffle32_16") => crate::lanes::shuffle32_16(a, imm),
        (_, "shufflelo") => crate::lanes::shufflelo(a, imm),
        _ => crate::lanes::shufflehi(a, imm),
    }
}

pub fn packus8(path: Path, a: V16) -> [u8; 8] {
    on!(path, S => S::packus8(S::load(&a)))
}

pub fn nonzero_mask(path: Path, zz: &[i16; 64]) -> u64 {
    on!(path, S => S::nonzero_mask(zz))
}
