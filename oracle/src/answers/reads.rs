//! Records of 808 bytes: reading calls on small planes and slices, previews and
//! block reports, and what they answer and leave in the rows.

use super::record::{self, Call, Filled, Part, AC, DC};
use super::{starts, streams};
use crate::calls::{Buffers, Calls, Plane, Rust};
use crate::gen::planes;
use crate::gen::streams::{damage, reading};
use crate::gen::Rng;
use crate::questions::Settings;
use reference::api::Path::Sse2;

/// Bytes of the rows that are stored.
const ROWS: usize = 512;
const RECORD: usize = 808;

pub const SLICE: u8 = 2;
pub const PREVIEW: u8 = 4;
pub const REPORT: u8 = 5;

pub struct List {
    rust: Rust,
    out: Vec<u8>,
}

pub fn list(rng: &mut Rng) -> (Vec<u8>, usize) {
    let mut l = List { rust: Rust::new(Sse2), out: vec![] };
    for s in streams::chosen() {
        let settings = Settings { preset: s.preset, dc_shift: s.dc_shift };
        let b = Buffers { dc: s.dc, dc_at: 0, ac: s.ac, ac_at: 0 };
        every(&mut l, rng, settings, s.place, 8, &b);
    }
    for _ in 0..18 {
        any::<u8>(&mut l, rng);
        any::<u16>(&mut l, rng);
        slice::<u8>(&mut l, rng);
        slice::<u16>(&mut l, rng);
    }
    bad_slices::<u8>(&mut l, rng);
    bad_slices::<u16>(&mut l, rng);
    refused::<u8>(&mut l, rng);
    refused::<u16>(&mut l, rng);
    starts::list(&mut l);
    let count = l.out.len() / RECORD;
    (l.out, count)
}

impl List {
    /// Puts a call and its answer: the number, and the rows behind it.
    pub fn put<T: Filled>(&mut self, c: &Call, before: &Buffers) -> u32 {
        let plane = |k: usize, place: usize| -> Plane<T> {
            let p = c.parts[k % 4];
            (place, p.stride, vec![T::filled(c.fill); p.len])
        };
        let mut after = before.clone();
        let mut rows: Vec<Vec<T>> = c.parts.iter().map(|p| vec![T::filled(c.fill); p.len]).collect();
        let number = if c.op < SLICE {
            let mut p = plane(0, c.place);
            let number = self.rust.read_plane(c.settings, &mut p, &mut after);
            rows[0] = p.2;
            number
        } else {
            let mut planes: Vec<_> = (0..c.place).map(|k| plane(k, k)).collect();
            let own = planes.clone();
            let number = self.rust.read_slice(c.settings, &mut planes, &mut after);
            if number == 0 {
                let made: Vec<Vec<T>> = planes.iter().map(|p| p.2.clone()).collect();
                assert!(self.rust.slice_rows(c.settings, &own, before) == (true, made));
            }
            for (k, p) in planes.into_iter().take(4).enumerate() {
                rows[k] = p.2;
            }
            number
        };
        self.record(c, before, number, &after, &rows);
        number
    }

    /// Puts a preview, into the first two parts, or a report, into the first.
    pub fn look(&mut self, c: &Call, before: &Buffers) -> u32 {
        let mut after = before.clone();
        let mut rows = c.parts.map(|p| vec![c.fill; p.len]);
        let [upper, lower, ..] = &mut rows;
        let stride = c.parts[0].stride;
        let number = if c.op == PREVIEW {
            self.rust.preview(c.settings.dc_shift, c.place, stride, [upper, lower], &mut after)
        } else {
            self.rust.block_report(stride, upper, &mut after)
        };
        self.record(c, before, number, &after, &rows);
        number
    }

    fn record<T: Filled>(&mut self, c: &Call, before: &Buffers, number: u32, after: &Buffers, rows: &[Vec<T>]) {
        let mut all = vec![T::default(); ROWS >> depth::<T>()];
        for (p, r) in c.parts.iter().zip(rows) {
            all[p.at..p.at + p.len].copy_from_slice(r);
        }
        record::numbers(&mut self.out, c, 0, before, number, after);
        let (dc, ac) = if c.long == 0 { (&before.dc[..], &before.ac[..]) } else { (&[][..], &[][..]) };
        record::bytes(&mut self.out, dc, DC);
        record::bytes(&mut self.out, ac, AC);
        record::bytes(&mut self.out, &record::stored(&all), ROWS);
    }
}

/// A call whose planes stand one behind the other.
pub fn call(op: u8, settings: Settings, place: usize, fill: u8, planes: &[(usize, usize)]) -> Call {
    let mut parts = [Part::default(); 4];
    let mut at = 0;
    for (k, (stride, len)) in planes.iter().enumerate() {
        parts[k] = Part { stride: *stride, at, len: *len };
        at += len;
    }
    Call { op, settings, place, parts, fill, long: 0 }
}

fn depth<T: Filled>() -> u8 {
    (T::MAX > 255) as u8
}

/// A plane read; samples behind its rows, as many as the record has room for, stay.
fn plane<T: Filled>(l: &mut List, rng: &mut Rng, settings: Settings, place: usize, stride: usize, b: &Buffers) {
    let room = (ROWS >> depth::<T>()) - 16 * stride;
    let len = 16 * stride + rng.below(20.min(room + 1));
    let c = call(depth::<T>(), settings, place, rng.next() as u8, &[(stride, len)]);
    l.put::<T>(&c, b);
}

fn preview(l: &mut List, rng: &mut Rng, settings: Settings, place: usize, stride: usize, b: &Buffers) {
    let outs = [(stride, stride / 8 + rng.below(3)), (0, stride / 8 + rng.below(3))];
    l.look(&call(PREVIEW, settings, place, rng.next() as u8, &outs), b);
}

fn report(l: &mut List, rng: &mut Rng, stride: usize, b: &Buffers) {
    let settings = Settings { preset: 0, dc_shift: 0 };
    let out = [(stride, stride / 4 + rng.below(3))];
    l.look(&call(REPORT, settings, 0, 2 + rng.next() as u8 % 254, &out), b);
}

/// Streams read as a plane of both depths, as a preview and for a report.
fn every(l: &mut List, rng: &mut Rng, settings: Settings, place: usize, stride: usize, b: &Buffers) {
    plane::<u8>(l, rng, settings, place, stride, b);
    plane::<u16>(l, rng, settings, place, stride, b);
    preview(l, rng, settings, place, stride, b);
    report(l, rng, stride, b);
}

/// Streams of every origin, whole and damaged, from starts within and past them.
fn any<T: Filled>(l: &mut List, rng: &mut Rng) {
    loop {
        let rust = &l.rust;
        let r = reading::<T>(rng, |rng, r| {
            let settings = Settings { preset: r.preset, dc_shift: r.dc_shift };
            rust.streams(settings, &(r.place, r.stride, planes::samples::<T>(rng, r.stride)))
        });
        if r.stride > 16 || r.dc.len() > DC || r.ac.len() > AC {
            continue;
        }
        let settings = Settings { preset: r.preset, dc_shift: r.dc_shift };
        let b = Buffers { dc: r.dc, dc_at: r.dc_at, ac: r.ac, ac_at: r.ac_at };
        plane::<T>(l, rng, settings, r.place, r.stride, &b);
        if rng.once_in(2) {
            preview(l, rng, settings, r.place, r.stride, &b);
        } else {
            report(l, rng, r.stride, &b);
        }
        return;
    }
}

/// The planes of a slice that has room in a record.
fn strides<T: Filled>(rng: &mut Rng) -> &'static [usize] {
    if T::MAX > 255 {
        rng.pick(&[&[8, 8][..], &[16], &[8]])
    } else {
        rng.pick(&[&[8, 8][..], &[16, 16], &[8, 16, 8], &[8, 8, 8, 8], &[16, 8]])
    }
}

fn slice_call<T: Filled>(rng: &mut Rng, settings: Settings, strides: &[usize]) -> Call {
    let planes: Vec<_> = strides.iter().map(|s| (*s, 16 * s)).collect();
    call(SLICE + depth::<T>(), settings, strides.len(), rng.next() as u8, &planes)
}

/// A slice's own streams, behind other bytes, at times damaged.
fn slice<T: Filled>(l: &mut List, rng: &mut Rng) {
    loop {
        let settings = Settings { preset: rng.below(25), dc_shift: rng.below(4) as u32 };
        let strides = strides::<T>(rng);
        let (d, a) = (rng.below(5), rng.below(5));
        let mut b = Buffers { dc: rng.bytes(d), dc_at: d, ac: rng.bytes(a), ac_at: a };
        for (place, stride) in strides.iter().enumerate() {
            let (dc, ac) = l.rust.streams(settings, &(place, *stride, planes::samples::<T>(rng, *stride)));
            b.dc.extend(dc);
            b.ac.extend(ac);
        }
        if rng.once_in(3) {
            let stream = if rng.once_in(2) { &mut b.dc } else { &mut b.ac };
            damage(rng, stream);
        }
        if b.dc.len() > DC || b.ac.len() > AC {
            continue;
        }
        let c = slice_call::<T>(rng, settings, strides);
        l.put::<T>(&c, &b);
        return;
    }
}

/// A bad code in plane 1, of DC or of AC: plane 0 stays too. And one behind the last plane: all are read.
fn bad_slices<T: Filled>(l: &mut List, rng: &mut Rng) {
    let settings = Settings { preset: 3, dc_shift: 0 };
    let good = Buffers { dc: vec![0x13, 0x80], dc_at: 0, ac: vec![0x80, 0x80], ac_at: 0 };
    for (dc, ac, wanted) in [([0; 8], [0xFF; 8], 8), ([0xFF; 8], [0; 8], 8), ([0; 8], [0; 8], 8)] {
        let mut b = good.clone();
        b.dc.extend(dc);
        b.ac.extend(ac);
        let c = slice_call::<T>(rng, settings, &[8, 8]);
        assert_eq!(l.put::<T>(&c, &b), wanted);
        let c = slice_call::<T>(rng, settings, &[8]);
        assert_eq!(l.put::<T>(&c, &b), 0);
    }
}

/// The arguments that question `number` is answered "no" for.
fn fault(rng: &mut Rng, c: &mut Call, b: &mut Buffers, number: u32) {
    match number {
        1 => c.settings.preset = rng.pick(&[25, 255, 65535]),
        2 => c.settings.dc_shift = rng.pick(&[16, 32, 65535]),
        3 if c.op == SLICE || c.op == SLICE + 1 => c.place = rng.pick(&[0, 5]),
        3 => c.place = rng.pick(&[4, 255, 65535]),
        4 => c.parts[0].stride = rng.pick(&[0, 4, 7, 12, 7688, 65528]),
        5 if c.op == PREVIEW && rng.once_in(2) => c.parts[1].len = 0,
        5 => c.parts[0].len = if c.op < PREVIEW { 127 } else { 0 },
        _ => {
            let far = rng.pick(&[16_777_216, 1 << 32, 1 << 63, usize::MAX]);
            if c.op == REPORT || (c.op != PREVIEW && rng.once_in(2)) {
                b.ac_at = far;
            } else {
                b.dc_at = far;
            }
        }
    }
}

/// Each question's "no", alone and with a later one; the last start that is taken.
fn refused<T: Filled>(l: &mut List, rng: &mut Rng) {
    let settings = Settings { preset: 5, dc_shift: 2 };
    let numbers: &[&[u32]] = &[&[1, 2, 3, 4, 5, 7], &[1, 2, 3, 4, 5, 7], &[2, 3, 4, 5, 7], &[4, 5, 7]];
    for (kind, asked) in numbers.iter().enumerate() {
        for number in asked.iter() {
            let later = rng.pick(asked).max(*number);
            let mut b = Buffers { dc: vec![0x13, 0x80], dc_at: 0, ac: vec![0x80, 0x80], ac_at: 0 };
            let mut c = match kind {
                0 => call(depth::<T>(), settings, 1, 0x77, &[(8, 128)]),
                1 => slice_call::<T>(rng, settings, &[8, 8]),
                2 => call(PREVIEW, settings, 2, 0x77, &[(8, 1), (0, 1)]),
                _ => call(REPORT, settings, 0, 0x77, &[(8, 2)]),
            };
            fault(rng, &mut c, &mut b, *number);
            if later > *number {
                fault(rng, &mut c, &mut b, later);
            }
            let found = if c.op < PREVIEW { l.put::<T>(&c, &b) } else { l.look(&c, &b) };
            assert_eq!(found, *number);
        }
    }
    let far = Buffers { dc: vec![0; 9], dc_at: 16_777_215, ac: vec![0; 9], ac_at: 16_777_215 };
    plane::<T>(l, rng, settings, 0, 8, &far);
}
