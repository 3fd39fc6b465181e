//! The stack that the calls need. The proofs are about a machine that never runs out of it, so this is tested: the largest
//! planes on a thread with a small part of the 2 MiB that Rust's threads have. A call that needs more ends this program by a
//! signal.

mod common;

use common::Random;
use std::thread;
use vmx::*;

const STRIDE: usize = 7680;
/// It also passes with 16 KiB, the least that a thread of Linux can have. Coding takes some 12 KiB, most of it the table that
/// a preset's numbers are copied from; reading takes 4.
const STACK: usize = 32 * 1024;

/// Each call on the largest plane, or on four of them, with noise below 64 in every sample.
fn calls<S: Sample>(make: impl Fn(usize) -> S) {
    let mut random = Random(7680);
    let rows: Vec<S> = (0..16 * STRIDE).map(|_| make(random.below(64))).collect();
    let size = slice_size(&[STRIDE; 4]).unwrap();
    let (mut dc, mut ac) = (vec![0; size.dc], vec![0; size.ac]);
    let (mut d, mut a) = (StreamWriter::new(&mut dc), StreamWriter::new(&mut ac));
    encode_plane(&rows, STRIDE, 0, 0, 0, &mut d, &mut a).unwrap();
    let mut read = vec![S::default(); rows.len()];
    let (mut d, mut a) = (StreamReader::new(d.written()), StreamReader::new(a.written()));
    decode_plane(&mut read, STRIDE, 0, 0, 0, &mut d, &mut a).unwrap();

    let planes = [0; 4].map(|_| Plane { rows: &rows, stride: STRIDE });
    let (mut d, mut a) = (StreamWriter::new(&mut dc), StreamWriter::new(&mut ac));
    encode_slice(&planes, 24, 0, &mut d, &mut a).unwrap();
    let mut read = [0; 4].map(|_| vec![S::default(); rows.len()]);
    let mut planes: Vec<_> = read.iter_mut().map(|rows| PlaneMut { rows, stride: STRIDE }).collect();
    let (d, a) = (d.written(), a.written());
    decode_slice(&mut planes, 24, 0, &mut StreamReader::new(d), &mut StreamReader::new(a)).unwrap();

    let (mut upper, mut lower, mut report) = (vec![0; STRIDE / 8], vec![0; STRIDE / 8], vec![0; STRIDE / 4]);
    decode_plane_preview(&mut upper, &mut lower, STRIDE, 0, 0, &mut StreamReader::new(d)).unwrap();
    block_report(&mut report, STRIDE, &mut StreamReader::new(a)).unwrap();
}

/// The largest frame, with empty streams.
fn frame() {
    let layout = Layout::new(7680, 4320).unwrap();
    let (mut out, empty) = (Vec::new(), vec![[0u8; 0]; layout.slices()]);
    write(&mut out, &layout, false, 90, 0, &empty, &empty).unwrap();
    assert!(Frame::parse(&layout, &out).unwrap().info().has_ac);
}

#[test]
fn the_largest_planes_need_little() {
    let work = || {
        calls(|noise| 100 + noise as u8);
        calls(|noise| (400 + 4 * noise as u16) << 6);
        frame();
    };
    thread::Builder::new().stack_size(STACK).spawn(work).unwrap().join().unwrap();
}
