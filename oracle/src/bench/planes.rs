//! Planes and slices coded and read, previews and block reports: the exported calls.

use super::{Content, Table};
use crate::calls::{Buffers, Calls, Plane, PlaneCoder, Rust};
use crate::gen::planes::Made;
use crate::ours::planes::OURS;
use crate::questions::{self, Settings};
use reference::api::PATHS;
use std::cell::RefCell;
use std::hint::black_box;

/// As many samples at every stride, and the same blocks: a plane of 7,680 and the parts that are cut out of it. So the times of
/// a block at two strides can be compared, and no plane is so short that the processor learns its branches.
const WIDE: usize = 7680;

const STRIDES: [usize; 3] = [64, 1920, WIDE];
const PRESETS: [usize; 3] = [0, 8, 24];

/// Planes and slices coded and read, previews, block reports: ns a block.
pub fn calls<T: Made>(t: &mut Table, depth: &str) {
    for content in t.contents.clone() {
        let wide = content.plane::<T>(WIDE);
        for stride in STRIDES {
            let planes = cut(&wide, stride);
            for row in [coding, reading] {
                for preset in PRESETS {
                    let name = format!("{depth}, {content}, stride {stride}, preset {preset}");
                    row(t, &name, Settings { preset, dc_shift: 0 }, &planes);
                }
            }
        }
        slices::<T>(t, depth, content);
    }
    alone::<T>(t, depth);
}

/// A plane in parts of a stride, from left to right.
fn cut<T: Made>((place, wide, rows): &Plane<T>, stride: usize) -> Vec<Plane<T>> {
    let part = |x: usize| rows.chunks(*wide).flat_map(|r| r[x..x + stride].to_vec()).collect();
    (0..*wide).step_by(stride).map(|x| (*place, stride, part(x))).collect()
}

/// Blocks of all planes.
fn blocks<T>(planes: &[Plane<T>]) -> usize {
    planes.iter().map(|p| p.1 / 4).sum()
}

pub fn room(stride: usize) -> Buffers {
    let (n, m) = questions::sizes(stride);
    Buffers { dc: vec![0; n], dc_at: 0, ac: vec![0; m], ac_at: 0 }
}

fn coding<T: Made>(t: &mut Table, name: &str, settings: Settings, planes: &[Plane<T>]) {
    let mut b = room(planes[0].1);
    let mut ours = || {
        for plane in planes {
            (b.dc_at, b.ac_at) = (0, 0);
            assert_eq!(OURS.code_plane(settings, plane, black_box(&mut b)), 0);
        }
    };
    // The Rust's own function: its streams go into vectors that grow.
    let [mut sse2, mut portable] = PATHS.map(|path| {
        let rust = Rust::new(path);
        move || planes.iter().for_each(|plane| drop(black_box(rust.streams(settings, plane))))
    });
    t.row(&format!("block coded, {name}"), blocks(planes), &mut [&mut ours, &mut sse2, &mut portable]);
}

/// The streams end where the plane's last code does, as in a frame.
pub fn coded<T: Made>(settings: Settings, planes: &[Plane<T>]) -> Buffers {
    let mut b = room(planes.iter().map(|p| p.1).sum());
    assert_eq!(OURS.code_slice(settings, planes, &mut b), 0);
    b.dc.truncate(b.dc_at);
    b.ac.truncate(b.ac_at);
    (b.dc_at, b.ac_at) = (0, 0);
    b
}

fn reading<T: Made>(t: &mut Table, name: &str, settings: Settings, planes: &[Plane<T>]) {
    let b: Vec<Buffers> = planes.iter().map(|plane| coded(settings, std::slice::from_ref(plane))).collect();
    let (mut own, rows) = (b.clone(), RefCell::new(planes.to_vec()));
    let mut ours = || {
        for (plane, b) in rows.borrow_mut().iter_mut().zip(&mut own) {
            (b.dc_at, b.ac_at) = (0, 0);
            assert_eq!(OURS.read_plane(settings, black_box(plane), b), 0);
        }
    };
    let [mut sse2, mut portable] = PATHS.map(|path| {
        let (rust, rows, b) = (Rust::new(path), &rows, &b);
        move || {
            for (plane, b) in rows.borrow_mut().iter_mut().zip(b) {
                assert!(rust.rows(settings, black_box(plane), b, (0, 0)).is_some());
            }
        }
    });
    t.row(&format!("block read, {name}"), blocks(planes), &mut [&mut ours, &mut sse2, &mut portable]);
}

/// The planes of a slice, 4:2:2.
pub fn three_planes<T: Made>(content: Content) -> Vec<Plane<T>> {
    [1920, 960, 960].iter().enumerate().map(|(p, s)| (p, *s, content.plane::<T>(*s).2)).collect()
}

/// A slice of three planes.
fn slices<T: Made>(t: &mut Table, depth: &str, content: Content) {
    let settings = Settings { preset: 8, dc_shift: 0 };
    let planes = three_planes::<T>(content);
    let blocks = blocks(&planes);
    let mut b = room(3840);
    let mut ours = || {
        (b.dc_at, b.ac_at) = (0, 0);
        assert_eq!(OURS.code_slice(settings, &planes, black_box(&mut b)), 0);
    };
    let [mut sse2, mut portable] = PATHS.map(|path| {
        let (rust, planes) = (Rust::new(path), &planes);
        move || planes.iter().for_each(|p| drop(black_box(rust.streams(settings, p))))
    });
    let name = format!("block of a slice of three planes coded, {depth}, {content}, preset 8");
    t.row(&name, blocks, &mut [&mut ours, &mut sse2, &mut portable]);
    let b = coded(settings, &planes);
    let (mut own, rows) = (b.clone(), RefCell::new(planes.clone()));
    let mut ours = || {
        (own.dc_at, own.ac_at) = (0, 0);
        assert_eq!(OURS.read_slice(settings, black_box(&mut rows.borrow_mut()), &mut own), 0);
    };
    let [mut sse2, mut portable] = PATHS.map(|path| {
        let (rust, rows, b) = (Rust::new(path), &rows, &b);
        move || {
            let mut at = (0, 0);
            for p in rows.borrow_mut().iter_mut() {
                at = rust.rows(settings, black_box(p), b, at).unwrap();
            }
        }
    });
    let name = format!("block of a slice of three planes read, {depth}, {content}, preset 8");
    t.row(&name, blocks, &mut [&mut ours, &mut sse2, &mut portable]);
}

/// Previews and block reports: one stream alone. The Rust has no report; beside ours stands its cursor under document 01's rule.
fn alone<T: Made>(t: &mut Table, depth: &str) {
    let plane = RefCell::new(Streams::new::<T>());
    let rust = Rust::new(PATHS[0]);
    let (mut ours, mut theirs) = (|| plane.borrow_mut().previewed(), || plane.borrow_mut().previewed_by_rust(&rust));
    t.row(&format!("block previewed, {depth}"), 480, &mut [&mut ours, &mut theirs]);
    let (mut ours, mut theirs) = (|| plane.borrow_mut().reported(&OURS), || plane.borrow_mut().reported(&rust));
    t.row(&format!("block reported, {depth}"), 480, &mut [&mut ours, &mut theirs]);
}

/// A plane's streams, and room for its preview and its report.
pub struct Streams {
    b: Buffers,
    rows: [Vec<u8>; 2],
    flat: Vec<u8>,
}

impl Streams {
    pub fn new<T: Made>() -> Self {
        let b = coded(Settings { preset: 8, dc_shift: 0 }, &[Content::Mixed.plane::<T>(1920)]);
        Streams { b, rows: [vec![0; 240], vec![0; 240]], flat: vec![0; 480] }
    }

    fn at_start(&mut self) -> (&mut Buffers, [&mut [u8]; 2], &mut [u8]) {
        (self.b.dc_at, self.b.ac_at) = (0, 0);
        let [x, y] = &mut self.rows;
        (black_box(&mut self.b), [x, y], &mut self.flat)
    }

    pub fn previewed(&mut self) {
        let (b, rows, _) = self.at_start();
        assert_eq!(OURS.preview(0, 0, 1920, rows, b), 0);
    }

    pub fn previewed_by_rust(&mut self, rust: &Rust) {
        let (b, rows, _) = self.at_start();
        assert_eq!(rust.preview_in_place(0, 0, 1920, rows, b), 0);
    }

    pub fn reported(&mut self, who: &impl Calls) {
        let (b, _, flat) = self.at_start();
        assert_eq!(who.block_report(1920, flat, b), 0);
    }
}
