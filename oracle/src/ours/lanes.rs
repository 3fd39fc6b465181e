//! Crate lanes, by crates/probe/src/of_lanes.rt.

use reference::api::lanes::{SHIFTS, TWO, V16, V32};

unsafe extern "C" {
    fn probe_lanes_two(op: u32, a: *const i16, an: usize, b: *const i16, bn: usize, out: *mut i16, n: usize);
    fn probe_lanes_one(op: u32, a: *const i16, an: usize, by: u8, out: *mut i16, n: usize);
    fn probe_lanes_two32(op: u32, a: *const i32, an: usize, b: *const i32, bn: usize, by: u8, out: *mut i32, n: usize);
    fn probe_lanes_madd(a: *const i16, an: usize, b: *const i16, bn: usize, out: *mut i32, n: usize);
    fn probe_lanes_packs32(a: *const i32, an: usize, b: *const i32, bn: usize, out: *mut i16, n: usize);
    fn probe_lanes_splat(v: i16, out: *mut i16, n: usize);
    fn probe_lanes_splat32(v: i32, out: *mut i32, n: usize);
    fn probe_lanes_load_u(t: *const u16, tn: usize, out: *mut i16, n: usize);
    fn probe_lanes_packus8(a: *const i16, an: usize, k: usize) -> u8;
}

/// An operation's number: its place in the list.
fn place(list: &[&str], op: &str) -> u32 {
    list.iter().position(|o| *o == op).expect("an operation of the list") as u32
}

pub fn two(op: &str, a: V16, b: V16) -> V16 {
    let mut r = [0; 8];
    // SAFETY: arrays of our own, each with its length.
    unsafe { probe_lanes_two(place(&TWO, op), a.as_ptr(), 8, b.as_ptr(), 8, r.as_mut_ptr(), 8) };
    r
}

fn one(op: u32, a: V16, by: u8) -> V16 {
    let mut r = [0; 8];
    // SAFETY: arrays of our own, each with its length.
    unsafe { probe_lanes_one(op, a.as_ptr(), 8, by, r.as_mut_ptr(), 8) };
    r
}

pub fn shift(op: &str, a: V16, n: u32) -> V16 {
    one(place(&SHIFTS, op), a, n as u8)
}

pub fn abs16(a: V16) -> V16 {
    one(2, a, 0)
}

fn two32(op: u32, a: V32, b: V32, by: u8) -> V32 {
    let mut r = [0; 4];
    // SAFETY: arrays of our own, each with its length.
    unsafe { probe_lanes_two32(op, a.as_ptr(), 4, b.as_ptr(), 4, by, r.as_mut_ptr(), 4) };
    r
}

pub fn add32(a: V32, b: V32) -> V32 {
    two32(0, a, b, 0)
}

pub fn sub32(a: V32, b: V32) -> V32 {
    two32(1, a, b, 0)
}

pub fn srai32(a: V32, n: u32) -> V32 {
    two32(2, a, a, n as u8)
}

pub fn madd(a: V16, b: V16) -> V32 {
    let mut r = [0; 4];
    // SAFETY: arrays of our own, each with its length.
    unsafe { probe_lanes_madd(a.as_ptr(), 8, b.as_ptr(), 8, r.as_mut_ptr(), 4) };
    r
}

pub fn packs32(a: V32, b: V32) -> V16 {
    let mut r = [0; 8];
    // SAFETY: arrays of our own, each with its length.
    unsafe { probe_lanes_packs32(a.as_ptr(), 4, b.as_ptr(), 4, r.as_mut_ptr(), 8) };
    r
}

pub fn splat(v: i16) -> V16 {
    let mut r = [0; 8];
    // SAFETY: arrays of our own, each with its length.
    unsafe { probe_lanes_splat(v, r.as_mut_ptr(), 8) };
    r
}

pub fn splat32(v: i32) -> V32 {
    let mut r = [0; 4];
    // SAFETY: arrays of our own, each with its length.
    unsafe { probe_lanes_splat32(v, r.as_mut_ptr(), 4) };
    r
}

pub fn load_u(t: &[u16; 8]) -> V16 {
    let mut r = [0; 8];
    // SAFETY: arrays of our own, each with its length.
    unsafe { probe_lanes_load_u(t.as_ptr(), 8, r.as_mut_ptr(), 8) };
    r
}

pub fn packus8(a: V16) -> [u8; 8] {
    // SAFETY: an array of eight.
    core::array::from_fn(|k| unsafe { probe_lanes_packus8(a.as_ptr(), 8, k) })
}
