//! Calls in a row: positions carried from call to call, slices among planes,
//! refused calls between, and what was coded read back with other bytes after it.

use super::Run;
use crate::calls::{Buffers, Calls, Plane, Rust};
use crate::gen::planes::{self, Made};
use crate::gen::{streams, Rng};
use crate::ours::planes::GUARDED;
use crate::questions::{self, Settings};
use reference::api::Path;

pub fn run(run: &mut Run) {
    let rust = Rust::new(Path::Sse2);
    let portable = Rust::new(Path::Portable);
    while run.more() {
        for _ in 0..10 {
            for _ in 0..3 {
                both::<u8>(run, &rust, &GUARDED, "8-bit");
                both::<u16>(run, &rust, &GUARDED, "10-bit");
            }
            both::<u8>(run, &rust, &portable, "8-bit");
            both::<u16>(run, &rust, &portable, "10-bit");
        }
    }
}

fn both<T: Made>(run: &mut Run, rust: &Rust, other: &impl Calls, depth: &str) {
    whole::<T>(run, rust, other, depth);
    damaged::<T>(run, rust, other, depth);
}

/// A plane, or a slice of planes whose places are their indices.
#[derive(Clone, Debug)]
struct Call<T> {
    settings: Settings,
    planes: Vec<Plane<T>>,
    slice: bool,
}

impl<T: Made> Call<T> {
    fn any(rng: &mut Rng, settings: Settings, slice: bool) -> Self {
        let count = if slice { rng.between(1, 4) } else { 1 };
        let planes = (0..count)
            .map(|p| {
                let stride = if rng.once_in(60) { 8 * rng.between(1, 120) } else { 8 * rng.between(1, 4) };
                let place = if slice { p } else { rng.below(4) };
                (place, stride, planes::samples(rng, stride))
            })
            .collect();
        Call { settings, planes, slice }
    }

    /// The same call made one that is refused: a setting, a stride, rows, a place.
    fn spoilt(mut self, rng: &mut Rng) -> Self {
        let p = rng.below(self.planes.len());
        match rng.below(5) {
            0 => self.settings.preset = 25 + rng.below(3),
            1 => self.settings.dc_shift = 16,
            2 => self.planes[p].1 = rng.pick(&[0, 7, 12, 7688]),
            3 => {
                self.planes[p].2.pop();
            }
            _ if !self.slice => self.planes[p].0 = 4,
            _ => self.settings.preset = 99,
        }
        self
    }

    /// The same call with other rows to read into.
    fn held(&self, rng: &mut Rng) -> Self {
        let mut c = self.clone();
        c.planes.iter_mut().for_each(|p| p.2.iter_mut().for_each(|s| *s = T::any(rng)));
        c
    }

    fn code(&self, who: &impl Calls, b: &mut Buffers) -> u32 {
        if self.slice {
            who.code_slice(self.settings, &self.planes, b)
        } else {
            who.code_plane(self.settings, &self.planes[0], b)
        }
    }

    fn read(&mut self, who: &impl Calls, b: &mut Buffers) -> u32 {
        if self.slice {
            who.read_slice(self.settings, &mut self.planes, b)
        } else {
            who.read_plane(self.settings, &mut self.planes[0], b)
        }
    }

    fn text(&self) -> String {
        let shapes: Vec<_> = self.planes.iter().map(|p| (p.0, p.1, p.2.len())).collect();
        format!("{:?} slice {} planes (place, stride, samples) {shapes:?}", self.settings, self.slice)
    }
}

/// A coding list from any bytes and starts, then a reading list of what it left.
fn whole<T: Made>(run: &mut Run, rust: &Rust, other: &impl Calls, depth: &str) {
    let coding = run.report.kind(format!("lists: coding calls, {depth}, {}", other.name()));
    let bytes = run.report.kind(format!("lists: bytes after a coding list, {depth}, {}", other.name()));
    let slices = run.report.kind("lists: a slice is its planes in a row, by encode_one_slice");
    let reading = run.report.kind(format!("lists: reading calls, {depth}, {}", other.name()));
    let ends = run.report.kind(format!("lists: the last position read is the last one coded, {}", other.name()));
    let rng = &mut run.rng;
    let settings = Settings { preset: rng.below(25), dc_shift: if rng.once_in(2) { 0 } else { rng.below(16) as u32 } };
    let calls: Vec<Call<T>> = (0..rng.between(1, 6))
        .map(|_| {
            let slice = rng.once_in(2);
            let call = Call::any(rng, settings, slice);
            match rng.once_in(4) {
                true => call.spoilt(rng),
                false => call,
            }
        })
        .collect();
    let list = || calls.iter().map(|c| c.text()).collect::<Vec<_>>().join("; ");
    // Room for all, or too little for the last.
    let sizes = calls.iter().flat_map(|c| &c.planes).map(|p| questions::sizes(p.1 % 7688));
    let need = sizes.fold((0, 0), |a, b| (a.0 + b.0, a.1 + b.1));
    let short = |rng: &mut Rng, n: usize| if rng.once_in(5) { rng.below(n + 1) } else { n };
    let (dc_at, ac_at) = (rng.below(9), rng.below(9));
    let (n, m) = (dc_at + short(rng, need.0) + rng.below(9), ac_at + short(rng, need.1) + rng.below(9));
    let start = Buffers { dc: rng.bytes(n), dc_at, ac: rng.bytes(m), ac_at };

    let (mut book, mut ours) = (start.clone(), start.clone());
    let mut accepted: Vec<&Call<T>> = vec![];
    for call in &calls {
        let (d, a) = (book.dc_at, book.ac_at);
        let wanted = call.code(rust, &mut book);
        if wanted == 0 {
            accepted.push(call);
            if call.slice {
                let (dc, ac) = (&book.dc[d..book.dc_at], &book.ac[a..book.ac_at]);
                run.report.check(slices, rust.same_slice(settings, &call.planes, dc, ac), 0, || call.text());
            }
        }
        let found = call.code(other, &mut ours);
        let at = |b: &Buffers| (b.dc_at, b.ac_at);
        run.report.same(coding, &(found, at(&ours)), &(wanted, at(&book)), calls.len(), || {
            format!("{} in {}", call.text(), list())
        });
    }
    run.report.same(bytes, &ours, &book, calls.len(), list);

    // Reading: the coded bytes, then anything.
    let rng = &mut run.rng;
    let after = |rng: &mut Rng, s: &[u8]| {
        let mut v = s.to_vec();
        let n = rng.below(12);
        v.extend(if rng.once_in(2) { vec![0; n] } else { rng.bytes(n) });
        v
    };
    let (dc, ac) = (after(rng, &book.dc[..book.dc_at]), after(rng, &book.ac[..book.ac_at]));
    let mut b = Buffers { dc, dc_at: start.dc_at, ac, ac_at: start.ac_at };
    let mut c = b.clone();
    for call in accepted {
        let held = call.held(&mut run.rng);
        // A slice stands for its planes in order: at times they are read one by one.
        let mut turns = if held.slice && run.rng.once_in(3) {
            held.planes.into_iter().map(|p| Call { settings: held.settings, planes: vec![p], slice: false }).collect()
        } else {
            vec![held]
        };
        if run.rng.once_in(4) {
            turns.insert(0, call.held(&mut run.rng).spoilt(&mut run.rng));
        }
        for turn in turns {
            let (mut x, mut y) = (turn.clone(), turn);
            let wanted = x.read(rust, &mut b);
            let found = y.read(other, &mut c);
            let same = found == wanted && wanted != 8 && x.planes == y.planes && b == c;
            run.report.check(reading, same, calls.len(), || {
                format!("{}: {found}, wanted {wanted}, ends {} {} in {}", x.text(), c.dc_at, c.ac_at, list())
            });
        }
    }
    run.report.same(ends, &(c.dc_at, c.ac_at), &(book.dc_at, book.ac_at), calls.len(), list);
}

/// A slice whose streams were damaged, or have a bad code in a plane of our choice.
fn damaged<T: Made>(run: &mut Run, rust: &Rust, other: &impl Calls, depth: &str) {
    let rng = &mut run.rng;
    let settings = Settings { preset: rng.below(25), dc_shift: rng.below(16) as u32 };
    let call = Call::<T>::any(rng, settings, true);
    let (mut dc, mut ac) = (vec![], vec![]);
    for plane in &call.planes {
        let (d, a) = rust.streams(settings, plane);
        dc.extend(d);
        ac.extend(a);
    }
    match rng.below(3) {
        0 => {
            // Zeros from somewhere on: a bad code in that plane.
            let s = if rng.once_in(2) { &mut dc } else { &mut ac };
            let from = rng.below(s.len());
            s.splice(from..from, [0; 14]);
        }
        1 => streams::damage(rng, &mut dc),
        _ => streams::damage(rng, &mut ac),
    }
    let before = Buffers { dc, dc_at: 0, ac, ac_at: 0 };
    let held = call.held(rng);
    let (mut x, mut b) = (held.clone(), before.clone());
    let wanted = x.read(rust, &mut b);
    let name = if wanted == 0 { "damaged slices read" } else { "slices refused for a bad code" };
    let kind = run.report.kind(format!("lists: {name}, {depth}, {}", other.name()));
    let own = run.report.kind("lists: decode_one_slice has the same verdict and rows");
    let (ok, rows) = rust.slice_rows(settings, &held.planes, &before);
    let agrees = ok == (wanted == 0) && (!ok || rows.iter().zip(&x.planes).all(|(r, p)| *r == p.2));
    run.report.check(own, agrees, 0, || call.text());
    let (mut y, mut c) = (held, before.clone());
    let found = y.read(other, &mut c);
    let same = found == wanted && x.planes == y.planes && b == c;
    run.report.check(kind, same, before.dc.len() + before.ac.len(), || {
        format!("{}: {found}, wanted {wanted}, DC {:02x?} AC {:02x?}", call.text(), before.dc, before.ac)
    });
}
