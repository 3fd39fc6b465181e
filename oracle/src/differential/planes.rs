//! Planes coded and read, previews, block reports: each call on its own, with
//! other bytes and samples around what it may touch.

use super::Run;
use crate::calls::{coding_number, reading_number, Buffers, Calls, Plane, PlaneCoder, Rust};
use crate::gen::planes::{self, Made};
use crate::gen::streams::{self, Reading};
use crate::gen::Rng;
use crate::ours::planes::{self as ours, GUARDED};
use crate::questions::{self, Settings, NO_CODE, NO_PLANE, STRIDE_MAX};
use reference::api::Path;

pub fn run(run: &mut Run) {
    let rust = Rust::new(Path::Sse2);
    let portable = Rust::new(Path::Portable);
    counts::<u8>(run);
    counts::<u16>(run);
    sizes(run);
    while run.more() {
        for _ in 0..10 {
            both::<u8>(run, &rust, &portable, "8-bit");
            both::<u16>(run, &rust, &portable, "10-bit");
        }
    }
}

fn both<T: Made>(run: &mut Run, rust: &Rust, portable: &Rust, depth: &str) {
    for _ in 0..3 {
        coded::<T>(run, rust, &GUARDED, depth);
        coding_refused::<T>(run, rust, &GUARDED);
        read::<T>(run, rust, &GUARDED, depth);
        reading_refused::<T>(run, rust, &GUARDED);
    }
    // The Rust's own two paths.
    coded::<T>(run, rust, portable, depth);
    read::<T>(run, rust, portable, depth);
}

/// Bytes of a buffer: junk, then room for `need` bytes, then more junk.
fn buffer(rng: &mut Rng, need: usize) -> (Vec<u8>, usize) {
    let at = if rng.once_in(3) { 0 } else { rng.below(30) };
    let after = if rng.once_in(3) { 0 } else { rng.below(20) };
    (rng.bytes(at + need + after), at)
}

fn text<T: std::fmt::Debug>(s: Settings, (place, stride, rows): &Plane<T>, b: &Buffers) -> String {
    format!(
        "{s:?} place {place} stride {stride} rows {} starts {} of {} and {} of {} {:?}",
        rows.len(),
        b.dc_at,
        b.dc.len(),
        b.ac_at,
        b.ac.len(),
        &rows[..rows.len().min(300)]
    )
}

fn coded<T: Made>(run: &mut Run, rust: &Rust, other: &impl PlaneCoder, depth: &str) {
    let kind = run.report.kind(format!("planes: coded, {depth}, {}", other.name()));
    let sizes = run.report.kind(format!("planes: streams within the size call's lengths, {depth}"));
    let rng = &mut run.rng;
    let stride = planes::stride(rng);
    let mut rows: Vec<T> = planes::samples(rng, stride);
    // Samples after the sixteen rows are not looked at.
    if rng.once_in(3) {
        rows.extend((0..rng.below(20)).map(|_| T::any(rng)));
    }
    let settings = Settings { preset: rng.below(25), dc_shift: if rng.once_in(2) { 0 } else { rng.below(16) as u32 } };
    let plane = (rng.below(4), stride, rows);
    let (most_dc, most_ac) = questions::sizes(stride);
    let (dc, dc_at) = buffer(rng, most_dc);
    let (ac, ac_at) = buffer(rng, most_ac);
    let before = Buffers { dc, dc_at, ac, ac_at };
    let (mut wanted, mut found) = (before.clone(), before.clone());
    let number = rust.code_plane(settings, &plane, &mut wanted);
    let answer = other.code_plane(settings, &plane, &mut found);
    run.report.same(kind, &(answer, found), &(number, wanted.clone()), stride, || text(settings, &plane, &before));
    let within = number == 0 && wanted.dc_at - dc_at <= most_dc && wanted.ac_at - ac_at <= most_ac;
    run.report.check(sizes, within, stride, || text(settings, &plane, &before));
}

fn read<T: Made>(run: &mut Run, rust: &Rust, other: &impl Calls, depth: &str) {
    let r: Reading<T> = streams::reading(&mut run.rng, |rng, r| {
        let settings = Settings { preset: r.preset, dc_shift: r.dc_shift };
        rust.streams::<T>(settings, &(r.place, r.stride, planes::samples(rng, r.stride)))
    });
    let settings = Settings { preset: r.preset, dc_shift: r.dc_shift };
    // Samples after the sixteen rows stay.
    let mut rows = r.rows.clone();
    rows.extend((0..run.rng.below(12)).map(|_| T::any(&mut run.rng)));
    let plane = (r.place, r.stride, rows);
    let before = Buffers { dc: r.dc.clone(), dc_at: r.dc_at, ac: r.ac.clone(), ac_at: r.ac_at };
    let (mut p, mut b) = (plane.clone(), before.clone());
    let wanted = rust.read_plane(settings, &mut p, &mut b);
    let ends = (b.dc_at, b.ac_at);
    let name = if wanted == 0 { "read" } else { "refused for a bad code" };
    let kind = run.report.kind(format!("planes: {name}, {depth}, {}", other.name()));
    let (mut q, mut c) = (plane, before.clone());
    let found = other.read_plane(settings, &mut q, &mut c);
    run.report.same(kind, &(found, q, c), &(wanted, p, b), r.size(), || r.text());
    ends_agree(run, rust, &r, &before, wanted, ends);
    previewed(run, rust, other, &r, &before);
    reported(run, rust, other, &r, &before);
}

/// A plane is refused where its DC or its AC stream alone is, and ends where each of them ends.
fn ends_agree<T>(run: &mut Run, rust: &Rust, r: &Reading<T>, before: &Buffers, number: u32, ends: (usize, usize)) {
    let kind = run.report.kind("planes: preview and block report end where the plane ends");
    let (mut x, mut y, mut flat) = (vec![0; r.stride / 8], vec![0; r.stride / 8], vec![0; r.stride / 4]);
    let mut b = before.clone();
    let dc = rust.preview(r.dc_shift, r.place, r.stride, [&mut x, &mut y], &mut b);
    let ac = rust.block_report(r.stride, &mut flat, &mut b);
    let found = if dc == 0 && ac == 0 { (0, (b.dc_at, b.ac_at)) } else { (NO_CODE, (before.dc_at, before.ac_at)) };
    run.report.same(kind, &found, &(number, ends), r.size(), || r.text());
}

fn previewed<T>(run: &mut Run, rust: &Rust, other: &impl Calls, r: &Reading<T>, before: &Buffers) {
    let outs = |rng: &mut Rng| (rng.bytes(r.stride / 8 + 3), rng.bytes(r.stride / 8 + 5));
    let (x, y) = outs(&mut run.rng);
    let answer = |who: &dyn Fn([&mut [u8]; 2], &mut Buffers) -> u32| {
        let (mut x, mut y, mut b) = (x.clone(), y.clone(), before.clone());
        let number = who([&mut x, &mut y], &mut b);
        (number, x, y, b)
    };
    let wanted = answer(&|out, b| rust.preview(r.dc_shift, r.place, r.stride, out, b));
    let found = answer(&|out, b| other.preview(r.dc_shift, r.place, r.stride, out, b));
    let name = if wanted.0 == 0 { "previewed" } else { "preview refused for a bad code" };
    let kind = run.report.kind(format!("planes: {name}, {}", other.name()));
    run.report.same(kind, &found, &wanted, r.size(), || r.text());
}

fn reported<T>(run: &mut Run, rust: &Rust, other: &impl Calls, r: &Reading<T>, before: &Buffers) {
    let out = run.rng.bytes(r.stride / 4 + 5);
    let (mut x, mut b) = (out.clone(), before.clone());
    let wanted = rust.block_report(r.stride, &mut x, &mut b);
    let (mut y, mut c) = (out, before.clone());
    let found = other.block_report(r.stride, &mut y, &mut c);
    let name = if wanted == 0 { "blocks reported" } else { "block report refused for a bad code" };
    let kind = run.report.kind(format!("planes: {name}, {}", other.name()));
    run.report.same(kind, &(found, y, c), &(wanted, x, b), r.size(), || r.text());
}

/// A number that is mostly within, at times at the limit, past it, within when it is cut to 32 bits, or anything.
fn around(rng: &mut Rng, limit: usize) -> usize {
    match rng.below(12) {
        0 => limit + 1,
        1 => rng.next() as usize,
        2 => usize::MAX - rng.below(3),
        3 => limit,
        4 => (1 << 32) + rng.below(limit + 1),
        _ => rng.below(limit + 1),
    }
}

/// Arguments of which some may be out of their limits; buffers that need `need` of a stride.
fn arguments<T: Made>(rng: &mut Rng, need: impl Fn(usize) -> (usize, usize)) -> (Settings, Plane<T>, Buffers) {
    let stride = match rng.below(12) {
        0 => rng.below(20),
        1 => rng.next() as usize,
        2 => 7688,
        3 => 0,
        4 => usize::MAX - 7,
        _ => 8 * rng.between(1, 3),
    };
    let small = stride.min(24);
    let len = match rng.below(8) {
        0 => rng.below(16 * small + 1),
        1 => (16 * small).saturating_sub(1),
        _ => 16 * small,
    };
    let place = |rng: &mut Rng, need: usize| {
        let at = rng.below(10);
        let (n, at) = match rng.below(10) {
            0 => ((at + need).saturating_sub(1), at),
            1 => (at + need, at + need + rng.below(3)),
            2 => (at + need, rng.next() as usize),
            3 => (at + need, usize::MAX),
            _ => (at + need, at),
        };
        (rng.bytes(n), at)
    };
    let (dc, dc_at) = place(rng, need(small).0);
    let (ac, ac_at) = place(rng, need(small).1);
    let settings = Settings { preset: around(rng, 24), dc_shift: around(rng, 15) as u32 };
    let plane = (around(rng, 3), stride, (0..len).map(|_| T::any(rng)).collect());
    (settings, plane, Buffers { dc, dc_at, ac, ac_at })
}

/// Coding calls that are mostly refused: the number, and nothing changed.
fn coding_refused<T: Made>(run: &mut Run, rust: &Rust, other: &impl PlaneCoder) {
    let (settings, plane, before): (_, Plane<T>, _) = arguments(&mut run.rng, questions::sizes);
    if coding_number(settings, std::slice::from_ref(&plane), &before) == 0 {
        return;
    }
    let kind = run.report.kind(format!("planes: coding refused, questions 1 to 7, {}", other.name()));
    let (mut b, mut c) = (before.clone(), before.clone());
    let wanted = rust.code_plane(settings, &plane, &mut b);
    let found = other.code_plane(settings, &plane, &mut c);
    run.report.same(kind, &(found, c), &(wanted, b), plane.2.len(), || text(settings, &plane, &before));
}

/// Reading calls, previews and reports that are mostly refused before question 8.
fn reading_refused<T: Made>(run: &mut Run, rust: &Rust, other: &impl Calls) {
    let (settings, plane, before): (_, Plane<T>, _) = arguments(&mut run.rng, |_| (3, 5));
    let size = plane.2.len();
    if reading_number(settings, std::slice::from_ref(&plane), &before) > 0 {
        let kind = run.report.kind(format!("planes: reading refused, questions 1 to 7, {}", other.name()));
        let (mut p, mut b) = (plane.clone(), before.clone());
        let (mut q, mut c) = (plane.clone(), before.clone());
        let wanted = rust.read_plane(settings, &mut p, &mut b);
        let found = other.read_plane(settings, &mut q, &mut c);
        run.report.same(kind, &(found, q, c), &(wanted, p, b), size, || text(settings, &plane, &before));
    }
    let (m, n) = (size / 128, (size + run.rng.below(60)) / 128);
    let (x, y) = (run.rng.bytes(m), run.rng.bytes(n));
    let kind = run.report.kind(format!("planes: previews around their questions, {}", other.name()));
    let answer = |who: &dyn Fn([&mut [u8]; 2], &mut Buffers) -> u32| {
        let (mut x, mut y, mut b) = (x.clone(), y.clone(), before.clone());
        let number = who([&mut x, &mut y], &mut b);
        (number, x, y, b)
    };
    let wanted = answer(&|out, b| rust.preview(settings.dc_shift, plane.0, plane.1, out, b));
    let found = answer(&|out, b| other.preview(settings.dc_shift, plane.0, plane.1, out, b));
    run.report.same(kind, &found, &wanted, size, || text(settings, &plane, &before));
    let kind = run.report.kind(format!("planes: block reports around their questions, {}", other.name()));
    let out = run.rng.bytes(size / 64);
    let (mut x, mut b) = (out.clone(), before.clone());
    let (mut y, mut c) = (out, before.clone());
    let wanted = rust.block_report(plane.1, &mut x, &mut b);
    let found = other.block_report(plane.1, &mut y, &mut c);
    run.report.same(kind, &(found, y, c), &(wanted, x, b), size, || text(settings, &plane, &before));
}

/// Plane counts that are not 1 to 4: question 3, whatever the planes are.
fn counts<T: Made>(run: &mut Run) {
    let kind = run.report.kind("planes: slices of no plane or of more than four, ours");
    let settings = Settings { preset: 3, dc_shift: 1 };
    let planes: Vec<Plane<T>> = (0..4).map(|p| (p, 8, vec![T::default(); 128])).collect();
    let (most_dc, most_ac) = questions::sizes(32);
    let before = Buffers { dc: vec![0x5A; most_dc], dc_at: 0, ac: vec![0x5A; most_ac], ac_at: 0 };
    for count in [0, 1, 2, 3, 4, 5, 6, 255, 256, 260, 1 << 32, (1 << 32) + 1, usize::MAX] {
        let wanted = if (1..=4).contains(&count) { 0 } else { NO_PLANE };
        let (p, mut b) = (planes.clone(), before.clone());
        let coded = GUARDED.code_counted(settings, count, &p, &mut b);
        let moved = b != before;
        let (mut q, mut c) = (planes.clone(), before.clone());
        let read = GUARDED.read_counted(settings, count, &mut q, &mut c);
        let changed = q != planes || c != before;
        let above = q.iter().zip(&planes).skip(count).all(|(x, y)| x == y);
        run.report.check(
            kind,
            coded == wanted && read == wanted && moved == (wanted == 0) && changed == (wanted == 0) && above,
            0,
            || format!("count {count}: {coded} and {read}, wanted {wanted}"),
        );
    }
}

/// The size calls: 4 and 197 bytes a block, for every stride and count.
fn sizes(run: &mut Run) {
    let kind = run.report.kind("planes: size calls, ours");
    let one = |stride: usize| questions::strides(&[stride]);
    for stride in (0..=7700).chain([usize::MAX - 7, usize::MAX, 1 << 32, (1 << 32) + 8]) {
        let (number, (dc, ac)) = (one(stride), questions::sizes(stride % 7688));
        let wanted = if number == 0 { Ok((dc, ac)) } else { Err(number) };
        run.report.same(kind, &ours::plane_size(stride), &wanted, stride, || format!("stride {stride}"));
    }
    for _ in 0..20_000 {
        let rng = &mut run.rng;
        let s: [usize; 4] =
            core::array::from_fn(|_| if rng.once_in(6) { around(rng, STRIDE_MAX) } else { 8 * rng.between(1, 960) });
        let count = around(rng, 4);
        let number = if (1..=4).contains(&count) { questions::strides(&s[..count]) } else { NO_PLANE };
        let wanted = if number == 0 {
            Ok(s[..count].iter().map(|s| questions::sizes(*s)).fold((0, 0), |a, b| (a.0 + b.0, a.1 + b.1)))
        } else {
            Err(number)
        };
        run.report.same(kind, &ours::slice_size(count, s), &wanted, count, || format!("{count} of {s:?}"));
    }
}
