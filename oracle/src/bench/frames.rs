//! A frame of 1,920 x 1,080 samples, 4:2:2, preset 8: its header, the places of its 136 streams and of one, and the frame
//! built from them. The Rust's `parse` does the first two at once; nothing here depends on its path.

use super::planes::{coded, three_planes};
use super::{Content, Table, LAPS};
use crate::ours;
use crate::questions::Settings;
use reference::api::layout::{self, Layout};
use std::cell::RefCell;
use std::hint::black_box;

const SIZE: (usize, usize) = (1920, 1080);
const PAGE: usize = 4096;

/// The streams, and the frame of them after some other bytes. Where all this lies moves the time of a copy by up to a sixth:
/// so both sides build the frame in the same memory, and each lap in other memory, at another place of a page.
pub struct Frame {
    layout: Layout,
    dc: Vec<Vec<u8>>,
    ac: Vec<Vec<u8>>,
    before: usize,
    bytes: Vec<u8>,
    table: Vec<u32>,
}

impl Frame {
    pub fn new(before: usize) -> Self {
        let layout = Layout::new(SIZE.0, SIZE.1).unwrap();
        let b = coded(Settings { preset: 8, dc_shift: 0 }, &three_planes::<u8>(Content::Mixed));
        let (dc, ac) = (vec![b.dc; layout.slices()], vec![b.ac; layout.slices()]);
        let (bytes, table) = (vec![0; before], vec![0; 4 * layout.slices()]);
        let mut frame = Frame { layout, dc, ac, before, bytes, table };
        frame.built_by_rust();
        frame
    }

    fn frame(&self) -> &[u8] {
        black_box(&self.bytes[self.before..])
    }

    pub fn parsed_by_rust(&self) {
        assert_eq!(layout::stream_count(&self.layout, self.frame()), Ok(2 * self.layout.slices()));
    }

    pub fn parsed(&self) {
        assert!(ours::layout::parse(SIZE.0, SIZE.1, self.frame()).is_ok());
    }

    pub fn all_found(&mut self) {
        let frame = black_box(&self.bytes[self.before..]);
        assert!(ours::layout::streams(SIZE.0, SIZE.1, frame, black_box(&mut self.table)).is_ok());
    }

    fn each_found(&self) {
        for ac in [false, true] {
            for slice in 0..self.layout.slices() {
                assert!(black_box(ours::layout::view(SIZE.0, SIZE.1, self.frame(), ac, slice)).is_ok());
            }
        }
    }

    pub fn built(&mut self) {
        let mut state = ours::builder::start(SIZE, false, 90, 0, black_box(&mut self.bytes), self.before).unwrap();
        for (is_ac, streams) in [(false, &self.dc), (true, &self.ac)] {
            for (slice, s) in streams.iter().enumerate() {
                assert_eq!(ours::builder::stream(SIZE, &mut state, is_ac, slice, s, &mut self.bytes), 0);
            }
        }
    }

    /// Into a vector that has its room.
    pub fn built_by_rust(&mut self) {
        self.bytes.truncate(self.before);
        layout::write_into(black_box(&mut self.bytes), &self.layout, false, 90, 0, black_box(&self.dc), &self.ac);
    }
}

pub fn frames(t: &mut Table) {
    let f = RefCell::new(Frame::new(t.lap * PAGE / LAPS));
    let streams = 2 * f.borrow().layout.slices();
    let parsed_by_rust = || f.borrow().parsed_by_rust();
    frame_row(t, "frame's header and lengths read, 1920 x 1080", &|| f.borrow().parsed(), &parsed_by_rust);
    frame_row(t, "header and all 136 streams of that frame found", &|| f.borrow_mut().all_found(), &parsed_by_rust);
    // The Rust has no call for one stream: who wants one has its `parse` find all.
    let mut rust = || (0..streams).for_each(|_| parsed_by_rust());
    t.row("one stream of that frame found", streams, &mut [&mut || f.borrow().each_found(), &mut rust]);
    let built_by_rust = || f.borrow_mut().built_by_rust();
    frame_row(t, "that frame built from its streams", &|| f.borrow_mut().built(), &built_by_rust);
    let mut f = f.into_inner();
    let wanted = f.bytes.clone();
    f.bytes[f.before..].fill(0);
    f.built();
    assert!(f.bytes == wanted);
    // Kept, so that the next lap's lies elsewhere.
    t.frames.push(f);
}

fn frame_row(t: &mut Table, name: &str, ours: &dyn Fn(), rust: &dyn Fn()) {
    const TIMES: usize = 20;
    let [mut ours, mut rust] = [ours, rust].map(|side| move || (0..TIMES).for_each(|_| side()));
    t.row(name, TIMES, &mut [&mut ours, &mut rust]);
}
