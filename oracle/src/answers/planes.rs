//! Records of 552 bytes: coding calls on small planes and slices, and what they
//! answer and write.

use super::record::{self, Call, Part, AC, DC};
use crate::calls::{Buffers, Calls, Plane, PlaneCoder, Rust};
use crate::gen::planes::{self, Made};
use crate::gen::Rng;
use crate::questions::{sizes, Settings};
use reference::api::Path::Sse2;

/// A record's samples are repeated until so many are there.
const SAMPLES: usize = 512;
/// Bytes of the samples that are stored.
const STORED: usize = 256;
const RECORD: usize = 552;

/// A coding call with its samples; of each buffer its length and the start.
#[derive(Clone)]
struct Coding<T> {
    call: Call,
    samples: Vec<T>,
    dc: (usize, usize),
    ac: (usize, usize),
}

struct List {
    rust: Rust,
    out: Vec<u8>,
}

pub fn list(rng: &mut Rng) -> (Vec<u8>, usize) {
    let mut l = List { rust: Rust::new(Sse2), out: vec![] };
    examples(&mut l);
    for preset in 0..25 {
        for _ in 0..3 {
            one::<u8>(&mut l, rng, preset);
            one::<u16>(&mut l, rng, preset);
        }
        several::<u8>(&mut l, rng, preset);
        several::<u16>(&mut l, rng, preset);
    }
    for shift in 0..16 {
        steps::<u8>(&mut l, rng, shift);
        steps::<u16>(&mut l, rng, shift);
    }
    for _ in 0..3 {
        row_of_calls::<u8>(&mut l, rng);
        row_of_calls::<u16>(&mut l, rng);
    }
    refused::<u8>(&mut l, rng);
    refused::<u16>(&mut l, rng);
    let count = l.out.len() / RECORD;
    (l.out, count)
}

impl List {
    /// Puts a call and its answer; nothing where its streams are longer than a record has room for.
    fn put<T: Made>(&mut self, c: &Coding<T>) -> Option<(u32, Buffers)> {
        let all: Vec<T> = (0..SAMPLES).map(|k| c.samples[k % c.samples.len()]).collect();
        let plane = |k: usize, place: usize| -> Plane<T> {
            let p = c.call.parts[k % 4];
            (place, p.stride, all[p.at..p.at + p.len].to_vec())
        };
        let fill = c.call.fill;
        let before = Buffers { dc: vec![fill; c.dc.0], dc_at: c.dc.1, ac: vec![fill; c.ac.0], ac_at: c.ac.1 };
        let mut after = before.clone();
        let number = if c.call.op < 2 {
            self.rust.code_plane(c.call.settings, &plane(0, c.call.place), &mut after)
        } else {
            let planes: Vec<_> = (0..c.call.place).map(|k| plane(k, k)).collect();
            let number = self.rust.code_slice(c.call.settings, &planes, &mut after);
            let (dc, ac) =
                (written(&after.dc, before.dc_at, after.dc_at), written(&after.ac, before.ac_at, after.ac_at));
            assert!(number > 0 || self.rust.same_slice(c.call.settings, &planes, dc, ac));
            number
        };
        let (dc, ac) = (written(&after.dc, before.dc_at, after.dc_at), written(&after.ac, before.ac_at, after.ac_at));
        if dc.len() > DC || ac.len() > AC {
            return None;
        }
        record::numbers(&mut self.out, &c.call, c.samples.len(), &before, number, &after);
        record::bytes(&mut self.out, dc, DC);
        record::bytes(&mut self.out, ac, AC);
        record::bytes(&mut self.out, &record::stored(&c.samples), STORED);
        Some((number, after))
    }
}

/// What a call wrote; a refused call nothing.
fn written(s: &[u8], start: usize, end: usize) -> &[u8] {
    if start == end {
        &[]
    } else {
        &s[start..end]
    }
}

fn depth<T: Made>() -> u8 {
    (T::MAX > 255) as u8
}

fn part(stride: usize, at: usize) -> Part {
    Part { stride, at, len: 16 * stride }
}

/// Room for `columns` columns of blocks behind the starts.
fn room(rng: &mut Rng, columns: usize, starts: (usize, usize)) -> ((usize, usize), (usize, usize)) {
    let (d, a) = sizes(8 * columns);
    ((starts.0 + d + rng.below(9), starts.0), (starts.1 + a + rng.below(9), starts.1))
}

/// A plane's call at settings, without a start, filled with 0xA5.
fn plain<T: Made>(settings: Settings, place: usize, stride: usize, samples: Vec<T>) -> Coding<T> {
    let (d, a) = sizes(stride);
    let parts = [part(stride, 0), Part::default(), Part::default(), Part::default()];
    Coding {
        call: Call { op: depth::<T>(), settings, place, parts, fill: 0xA5, long: 0 },
        samples,
        dc: (d, 0),
        ac: (a, 0),
    }
}

/// Document 01's examples, and planes that few wrong coders code right.
fn examples(l: &mut List) {
    let at = |dc_shift| Settings { preset: 0, dc_shift };
    for (sample, place, shift) in
        [(128, 0, 0), (255, 0, 0), (0, 0, 0), (255, 0, 3), (255, 1, 4), (255, 3, 0), (127, 2, 15), (0, 1, 0)]
    {
        l.put(&plain::<u8>(at(shift), place, 8, vec![sample])).unwrap();
    }
    for (sample, place, shift) in
        [(512 << 6, 0, 0), (65535, 0, 0), (0, 0, 0), (65535, 1, 3), (1022 << 6, 1, 3), (63, 3, 0), (64, 2, 0)]
    {
        l.put(&plain::<u16>(at(shift), place, 8, vec![sample])).unwrap();
    }
}

/// Samples of a stride's plane, or of as many of its rows as a record has room for.
fn samples<T: Made>(rng: &mut Rng, stride: usize) -> Vec<T> {
    let mut s: Vec<T> = planes::samples(rng, stride);
    let most = STORED >> depth::<T>();
    if s.len() > most {
        s.truncate(most - rng.below(9));
    }
    s
}

fn settings(rng: &mut Rng, preset: usize) -> Settings {
    Settings { preset, dc_shift: if rng.once_in(2) { 0 } else { rng.below(16) as u32 } }
}

/// A plane of a preset, with other samples behind its rows and other bytes around its streams.
fn one<T: Made>(l: &mut List, rng: &mut Rng, preset: usize) {
    loop {
        let stride = rng.pick(&[8, 16]);
        let starts = (rng.below(10), rng.below(10));
        let s = samples(rng, stride);
        let mut c = plain::<T>(settings(rng, preset), rng.below(4), stride, s);
        c.call.fill = rng.next() as u8;
        c.call.parts[0].len += rng.below(20);
        (c.dc, c.ac) = room(rng, stride / 8, starts);
        if l.put(&c).is_some() {
            return;
        }
    }
}

/// Strides of slices: at most four columns of blocks.
const STRIDES: [&[usize]; 8] =
    [&[8], &[8, 8], &[16, 8], &[16, 16], &[8, 8, 8], &[16, 8, 8], &[8, 16, 8], &[8, 8, 8, 8]];

/// A slice's call from starts.
fn slice<T: Made>(rng: &mut Rng, settings: Settings, strides: &[usize], starts: (usize, usize)) -> Coding<T> {
    let s = samples(rng, 16);
    let mut c = plain::<T>(settings, strides.len(), 8, s);
    c.call.op += 2;
    c.call.fill = rng.next() as u8;
    let mut at = 0;
    for (k, stride) in strides.iter().enumerate() {
        c.call.parts[k] = part(*stride, at);
        at += 16 * stride;
    }
    (c.dc, c.ac) = room(rng, at / 128, starts);
    c
}

fn several<T: Made>(l: &mut List, rng: &mut Rng, preset: usize) {
    loop {
        let strides = rng.pick(&STRIDES);
        let starts = (rng.below(10), rng.below(10));
        let settings = settings(rng, preset);
        let c = slice::<T>(rng, settings, strides, starts);
        if l.put(&c).is_some() {
            return;
        }
    }
}

/// Blocks of 0 and of the largest sample in turn: the longest DC steps of a shift.
fn steps<T: Made>(l: &mut List, rng: &mut Rng, shift: u32) {
    let (low, high) = (T::make(rng, 0), T::make(rng, T::MAX));
    let s = (0..128).map(|k| if k / 64 == 0 { low } else { high }).collect();
    let settings = Settings { preset: rng.below(25), dc_shift: shift };
    l.put(&plain::<T>(settings, rng.below(4), 8, s)).unwrap();
}

/// Calls in a row at one depth, preset and DC shift, each from where the last one ended; one is refused.
fn row_of_calls<T: Made>(l: &mut List, rng: &mut Rng) {
    let preset = rng.between(8, 24);
    let settings = settings(rng, preset);
    let mut starts = (rng.below(4), rng.below(4));
    let mut done = 0;
    while done < 4 {
        let mut c = if done % 2 == 0 {
            let s = samples(rng, 8);
            let mut c = plain::<T>(settings, rng.below(4), 8, s);
            (c.dc, c.ac) = room(rng, 1, starts);
            c
        } else {
            slice::<T>(rng, settings, &[8, 8], starts)
        };
        if done == 2 {
            c.dc.0 = starts.0 + 7;
        }
        if starts.1 > 200 {
            return;
        }
        if let Some((_, b)) = l.put(&c) {
            starts = (b.dc_at, b.ac_at);
            done += 1;
        }
    }
}

/// The arguments that question `number` is answered "no" for.
fn fault<T: Made>(rng: &mut Rng, c: &mut Coding<T>, number: u32) {
    match number {
        1 => c.call.settings.preset = rng.pick(&[25, 26, 255, 65535]),
        2 => c.call.settings.dc_shift = rng.pick(&[16, 17, 32, 65535]),
        3 if c.call.op < 2 => c.call.place = rng.pick(&[4, 5, 255, 65535]),
        3 => c.call.place = rng.pick(&[0, 5, 6]),
        4 => c.call.parts[0].stride = rng.pick(&[0, 1, 4, 7, 12, 7688, 65528]),
        5 => c.call.parts[0].len = rng.pick(&[0, 1, 127, 112]),
        _ => no_room(rng, c),
    }
}

/// A start past the end, a sum that overflows, a byte too few.
fn no_room<T>(rng: &mut Rng, c: &mut Coding<T>) {
    let stream = if rng.once_in(2) { &mut c.dc } else { &mut c.ac };
    match rng.below(5) {
        0 => stream.1 = stream.0 + rng.below(3),
        1 => stream.1 = rng.pick(&[16_777_215, 16_777_216, 1 << 31, 1 << 32, 1 << 63, usize::MAX - 8, usize::MAX]),
        2 => *stream = (0, 0),
        _ => {
            stream.1 = stream.1.min(9);
            stream.0 = stream.1 + if stream.0 < 100 { 7 } else { 393 };
        }
    }
}

/// Each question's "no", alone and with each later one; slices whose planes differ in what is wrong.
fn refused<T: Made>(l: &mut List, rng: &mut Rng) {
    for op in 0..2 {
        for first in 1..7 {
            for second in first..7 {
                let settings = settings(rng, 24);
                let mut c = if op == 0 {
                    let mut c = plain(settings, rng.below(4), 8, samples::<T>(rng, 8));
                    let starts = (rng.below(4), rng.below(4));
                    (c.dc, c.ac) = room(rng, 1, starts);
                    c
                } else {
                    slice(rng, settings, &[8], (1, 2))
                };
                fault(rng, &mut c, first);
                fault(rng, &mut c, second);
                assert_eq!(l.put(&c).unwrap().0, first);
            }
        }
    }
    let settings = Settings { preset: 20, dc_shift: 1 };
    let mut both = |change: &dyn Fn(&mut Coding<T>), number: u32| {
        let mut c = slice::<T>(rng, settings, &[8, 8], (3, 4));
        (c.dc.0, c.ac.0) = (c.dc.1 + 16, c.ac.1 + 788);
        change(&mut c);
        assert_eq!(l.put(&c).unwrap().0, number);
    };
    // Rows too few in plane 0, a bad stride in plane 1: the stride's question comes first.
    both(&|c| (c.call.parts[0].len, c.call.parts[1].stride) = (127, 12), 4);
    both(&|c| c.call.parts[1].len = 127, 5);
    // What is behind the planes that are counted is not asked about.
    both(&|c| c.call.parts[2] = Part { stride: 7, at: 0, len: 3 }, 0);
    both(&|c| c.dc.0 -= 1, 6);
    both(&|c| c.ac.0 -= 1, 6);
}
