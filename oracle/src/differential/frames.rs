//! Layouts, frames written and read.

use super::Run;
use crate::gen::frames;
use crate::ours;
use crate::questions::{NO_ROWS, NO_TURN, SLICES_MAX};
use crate::report::Kind;
use reference::api::layout::{number, parse, write, Container, Layout};

pub fn run(run: &mut Run) {
    let kinds = Kinds::new(run);
    for height in (16..=1100).chain(2100..=2200).chain(4070..=4320) {
        geometry(run, &kinds, 16 + 2 * (height % 30), height);
    }
    for width in (16..=7680).step_by(2) {
        geometry(run, &kinds, width, 480);
    }
    for width in [0, 1, 14, 15, 16, 17, 1921, 7679, 7680, 7681, 7682, usize::MAX] {
        for height in [0, 1, 15, 16, 480, 576, 1080, 4320, 4321, 100_000, usize::MAX - 20, usize::MAX] {
            geometry(run, &kinds, width, height);
        }
    }
    small(run, &kinds);
    while run.more() {
        for _ in 0..20 {
            let (width, height) = frames::any_dimensions(&mut run.rng);
            geometry(run, &kinds, width, height);
            random(run, &kinds);
            bad_size(run, &kinds, width, height);
        }
    }
}

struct Kinds {
    layout: Kind,
    rows: Kind,
    written: Kind,
    read: Kind,
    refused: Kind,
    views: Kind,
    parts: Kind,
    tables: Kind,
}

impl Kinds {
    fn new(run: &mut Run) -> Self {
        let mut kind = |name: &str| run.report.kind(format!("frames: {name}"));
        Kinds {
            layout: kind("layouts"),
            rows: kind("image rows"),
            written: kind("what was written is read back"),
            read: kind("read"),
            refused: kind("refused"),
            views: kind("places of streams"),
            parts: kind("streams as parts of the frame"),
            tables: kind("tables of places"),
        }
    }
}

/// All that follows from a width and a height: the geometry and the methods of Layout, or 9 from each call.
fn geometry(run: &mut Run, kinds: &Kinds, width: usize, height: usize) {
    let rust = Layout::new(width, height).map_err(number);
    let found = ours::layout::new(width, height);
    let wanted = rust.map(|l| {
        let [y, u, v, a] = l.strides();
        assert!(u == v && y == a);
        [l.aligned_height(), l.slices(), y, u, l.max_dc_len(), l.max_ac_len()]
    });
    let text = || format!("width {width} height {height}");
    run.report.same(kinds.layout, &found, &wanted, 0, text);
    let (found, wanted) = (ours::layout::interlace_capable(width, height), rust.map(|l| l.interlace_capable()));
    run.report.same(kinds.layout, &found, &wanted, 0, text);
    let high = rust.map_or(100, |l| l.aligned_height());
    for interlaced in [false, true] {
        let found = ours::layout::preview_size(width, height, interlaced);
        run.report.same(kinds.layout, &found, &rust.map(|l| l.preview_size(interlaced)), 0, text);
        let start = run.rng.below(high);
        for r in (start..start + 20).chain([0, height, high / 2, high, usize::MAX]) {
            let found = ours::layout::image_row(width, height, r, interlaced);
            run.report.same(kinds.rows, &found, &rust.map(|l| l.image_row(r, interlaced)), 0, || {
                format!("width {width} height {height} row {r} interlaced {interlaced}")
            });
        }
    }
}

/// Small frames with every byte changed and every cut.
fn small(run: &mut Run, kinds: &Kinds) {
    for (width, height) in [(16, 16), (18, 33), (24, 480)] {
        let l = Layout::new(width, height).unwrap();
        for shift in [0, 3] {
            for with_ac in [true, false] {
                let streams =
                    |n: usize| -> Vec<Vec<u8>> { (0..l.slices()).map(|i| vec![i as u8; (i + n) % 4]).collect() };
                let ac = if with_ac { streams(2) } else { vec![] };
                let frame = write(&l, true, 80, shift, &streams(1), &ac);
                for cut in 0..=frame.len() {
                    judged(run, kinds, width, height, &l, &frame[..cut]);
                }
                for at in 0..frame.len() {
                    for b in (0..=255).step_by(if l.slices() > 8 { 37 } else { 1 }) {
                        let mut f = frame.clone();
                        f[at] = b;
                        judged(run, kinds, width, height, &l, &f);
                    }
                }
            }
        }
    }
}

fn random(run: &mut Run, kinds: &Kinds) {
    let p = frames::parts(&mut run.rng);
    let l = Layout::new(p.width, p.height).unwrap();
    let mut frame = write(&l, p.interlaced, p.quality as i32, p.dc_shift, &p.dc, &p.ac);
    let long = |streams: &[Vec<u8>], limit| streams.iter().any(|s| s.len() > limit);
    let within = !long(&p.dc, l.max_dc_len()) && !long(&p.ac, l.max_ac_len());
    let bytes = |places: &[(usize, usize)]| -> Vec<Vec<u8>> {
        places.iter().map(|(at, n)| frame[*at..at + n].to_vec()).collect()
    };
    let ok = match parse(&l, &frame) {
        Err(_) => !within,
        Ok(c) => within && bytes(&c.dc) == p.dc && bytes(&c.ac) == p.ac,
    };
    run.report.check(kinds.written, ok, frame.len(), || format!("{p:?}"));
    judged(run, kinds, p.width, p.height, &l, &frame);
    for _ in 0..3 {
        frames::change(&mut run.rng, &mut frame);
        judged(run, kinds, p.width, p.height, &l, &frame);
    }
}

/// Question 9 comes before all others.
fn bad_size(run: &mut Run, kinds: &Kinds, width: usize, height: usize) {
    let Err(e) = Layout::new(width, height) else { return };
    let n = run.rng.below(8);
    let frame = run.rng.bytes(n);
    let text = || format!("width {width} height {height} frame {frame:02x?}");
    run.report.same(kinds.refused, &ours::layout::parse(width, height, &frame), &Err(number(e)), n, text);
    run.report.same(kinds.views, &ours::layout::view(width, height, &frame, false, 0), &Err(number(e)), n, text);
    part(run, kinds, (width, height), &frame, (false, 0), Err(number(e)));
    let room = run.rng.pick(&[0, 4 * SLICES_MAX, 8]);
    table(run, kinds, (width, height), &frame, room, &Err(number(e)));
}

/// All streams' places in a table of so many numbers: question 5 comes after 9 and before all others, a refused call
/// leaves the table as it was, and so do all numbers after the places.
fn table(run: &mut Run, kinds: &Kinds, size: (usize, usize), frame: &[u8], room: usize, rust: &Result<Container, u32>) {
    let (width, height) = size;
    let fill = run.rng.next() as u32;
    let mut wanted: Vec<u32> = (0..room as u32).map(|i| fill ^ i).collect();
    let mut found = wanted.clone();
    let slices = Layout::new(width, height).map_or(0, |l| l.slices());
    let number = if room < 4 * slices { Err(NO_ROWS) } else { rust.as_ref().map(header).map_err(|x| *x) };
    if let (Ok(_), Ok(c)) = (&number, rust) {
        let none = vec![(0, 0); slices];
        let ac = if c.ac.is_empty() { &none } else { &c.ac };
        let places = c.dc.iter().chain(ac).flat_map(|(at, n)| [*at as u32, *n as u32]);
        wanted.iter_mut().zip(places).for_each(|(w, x)| *w = x);
    }
    let answer = ours::layout::streams(width, height, frame, &mut found);
    run.report.same(kinds.tables, &(answer, found), &(number, wanted), frame.len(), || {
        format!(
            "width {width} height {height} room {room} frame of {}: {:02x?}",
            frame.len(),
            &frame[..frame.len().min(200)]
        )
    });
}

/// The stream that is handed back as a part of the frame: its bytes, none where it is refused, and the number.
fn part(
    run: &mut Run,
    kinds: &Kinds,
    (width, height): (usize, usize),
    frame: &[u8],
    (ac, slice): (bool, usize),
    place: Result<(usize, usize), u32>,
) {
    let wanted = match place {
        Ok((at, n)) => (frame[at..at + n].to_vec(), 0),
        Err(number) => (vec![], number),
    };
    let found = ours::layout::part(width, height, frame, ac, slice);
    run.report.same(kinds.parts, &found, &wanted, frame.len(), || {
        format!("slice {slice} ac {ac} width {width} height {height} frame of {}", frame.len())
    });
}

/// What a frame's header says, as numbers.
fn header(c: &Container) -> [usize; 5] {
    [c.interlaced as usize, c.quality as usize, c.dc_shift as usize, c.header_len, !c.ac.is_empty() as usize]
}

/// One frame: its header or its refusal, some of its streams, and all of them in a table.
fn judged(run: &mut Run, kinds: &Kinds, width: usize, height: usize, l: &Layout, frame: &[u8]) {
    let rust = parse(l, frame).map_err(number);
    let text =
        || format!("width {width} height {height} frame of {}: {:02x?}", frame.len(), &frame[..frame.len().min(200)]);
    let found = ours::layout::parse(width, height, frame);
    let wanted = rust.as_ref().map(header).map_err(|x| *x);
    let kind = if wanted.is_ok() { kinds.read } else { kinds.refused };
    run.report.same(kind, &found, &wanted, frame.len(), text);
    for slice in [run.rng.below(l.slices()), 0, l.slices() - 1, l.slices(), run.rng.next() as usize] {
        for ac in [false, true] {
            let wanted = rust.as_ref().map_err(|x| *x).and_then(|c| {
                let list = if ac { &c.ac } else { &c.dc };
                list.get(slice).copied().ok_or(NO_TURN)
            });
            let found = ours::layout::view(width, height, frame, ac, slice);
            let text = || format!("slice {slice} ac {ac} {}", text());
            run.report.same(kinds.views, &found, &wanted, frame.len(), text);
            part(run, kinds, (width, height), frame, (ac, slice), wanted);
        }
    }
    let room = match run.rng.below(8) {
        0 => run.rng.below(4 * l.slices()),
        1 => 4 * l.slices() + run.rng.below(6),
        _ => 4 * l.slices(),
    };
    table(run, kinds, (width, height), frame, room, &rust);
}
