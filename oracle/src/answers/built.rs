//! Records of 1,120 bytes: a header and streams handed to the builder, the number
//! that each call is answered with, whether the frame is complete after it, and the
//! frame, as `write` writes the streams that are accepted.

use super::record;
use crate::gen::Rng;
use reference::api::layout::{number, write, Layout};

const RECORD: usize = 1120;
/// The most streams of a record.
const STREAMS: usize = 8;
/// The bytes that streams are taken from, repeated until 1,024 are there.
const POOL: usize = 32;
/// The longest frame of a record.
const FRAME: usize = 960;

/// A stream that is handed over: its kind, its slice, its part of the repeated bytes, width and height of the call.
#[derive(Clone, Copy)]
struct Stream {
    ac: bool,
    slice: usize,
    at: usize,
    len: usize,
    size: (usize, usize),
}

/// The builder's state, as the model holds it.
#[derive(Clone, Copy)]
struct State {
    ac_turn: bool,
    next: usize,
    at: usize,
}

/// The calls that build a frame into a buffer of `room` bytes, from `at` on.
#[derive(Clone)]
struct Calls {
    width: usize,
    height: usize,
    interlaced: bool,
    quality: u8,
    shift: Option<u32>,
    at: usize,
    room: usize,
    streams: Vec<Stream>,
}

pub fn list(rng: &mut Rng) -> (Vec<u8>, usize) {
    let mut out = Vec::new();
    for (width, height) in [(16, 16), (16, 32), (18, 33), (40, 48)] {
        for shift in [None, Some(0), Some(3), Some(15)] {
            for with_ac in [false, true] {
                whole(&mut out, rng, width, height, shift, with_ac);
            }
        }
    }
    for height in [480, 576, 1080, 4080, 4096, 4320] {
        let mut c = calls(rng, 16, height, Some(2), false);
        c.streams.truncate(STREAMS);
        put(&mut out, rng, &c);
    }
    for len in [511, 512, 513] {
        limited(&mut out, rng, len, 0);
    }
    for len in [895, 896, 897] {
        limited(&mut out, rng, 0, len);
    }
    for _ in 0..24 {
        out_of_turn(&mut out, rng);
    }
    sizes(&mut out, rng);
    headers(&mut out, rng);
    let count = out.len() / RECORD;
    (out, count)
}

/// All streams of a frame in their turn, each of a few bytes, into a buffer that has room.
fn calls(rng: &mut Rng, width: usize, height: usize, shift: Option<u32>, with_ac: bool) -> Calls {
    let slices = Layout::new(width, height).unwrap().slices();
    let mut streams = vec![];
    for ac in [false, true] {
        for slice in 0..if ac && !with_ac { 0 } else { slices } {
            streams.push(Stream { ac, slice, at: rng.below(POOL), len: rng.below(20), size: (width, height) });
        }
    }
    Calls {
        width,
        height,
        interlaced: rng.once_in(2),
        quality: rng.next() as u8,
        shift,
        at: rng.below(7),
        room: 1024 - rng.below(40),
        streams,
    }
}

fn header_len(c: &Calls) -> usize {
    if c.shift.unwrap_or(0) > 0 {
        5
    } else {
        3
    }
}

/// A frame with room to spare, with room to the byte, and with a byte too few.
fn whole(out: &mut Vec<u8>, rng: &mut Rng, width: usize, height: usize, shift: Option<u32>, with_ac: bool) {
    let mut c = calls(rng, width, height, shift, with_ac);
    put(out, rng, &c);
    let len: usize = c.streams.iter().map(|s| 4 + s.len).sum();
    c.room = c.at + header_len(&c) + len - rng.below(2);
    put(out, rng, &c);
}

/// A frame of one slice whose streams are at their limits.
fn limited(out: &mut Vec<u8>, rng: &mut Rng, dc: usize, ac: usize) {
    let mut c = calls(rng, 16, 16, None, true);
    c.streams[0].len = dc;
    c.streams[1].len = ac;
    put(out, rng, &c);
}

/// Streams of the wrong kind or slice, too long, or behind the last one, before those in their turn.
fn out_of_turn(out: &mut Vec<u8>, rng: &mut Rng) {
    let height = rng.pick(&[16, 32]);
    let shift = if rng.once_in(2) { None } else { Some(rng.below(16) as u32) };
    let with_ac = rng.once_in(2);
    let mut c = calls(rng, 16, height, shift, with_ac);
    while c.streams.len() < STREAMS {
        let wrong = Stream {
            ac: rng.once_in(2),
            slice: rng.pick(&[0, 0, 1, 2, 255]),
            at: rng.below(POOL),
            len: rng.pick(&[0, 5, 513, 897, 990]),
            size: (16, height),
        };
        let k = rng.below(c.streams.len() + 1);
        c.streams.insert(k, wrong);
    }
    put(out, rng, &c);
}

/// Streams handed over with sizes that no frame has, alone and where 6, 13 or 14 is asked too, and with other sizes than the
/// header's, whose limits and slice count then hold; each before the frame's own.
fn sizes(out: &mut Vec<u8>, rng: &mut Rng) {
    for size in [(15, 32), (14, 32), (7682, 32), (16, 15), (16, 4321), (0, 0), (65535, 65535)] {
        for (slice, len) in [(0, 3), (0, 513), (1, 3), (2, 513), (0, 1020)] {
            let mut c = calls(rng, 16, 32, None, true);
            let k = rng.below(c.streams.len() + 1);
            // Within the 1,024 bytes that there are.
            let at = rng.below(POOL).min(1024 - len);
            c.streams.insert(k, Stream { ac: k > 1, slice, at, len, size });
            put(out, rng, &c);
        }
    }
    // The DC limit of width 16 is 512 bytes, of width 24 768; the AC limits are 896 and 1,344.
    for (width, len) in [(16, 513), (18, 513), (24, 768), (24, 769), (26, 769), (16, 800)] {
        let mut c = calls(rng, 16, 16, None, true);
        (c.streams[0].size.0, c.streams[0].len) = (width, len);
        put(out, rng, &c);
    }
    // After one DC stream of two the frame is complete for a height of one slice, and the other way round.
    for (header, height) in [(32, 16), (16, 32), (48, 32), (32, 48), (32, 4320)] {
        let mut c = calls(rng, 16, header, None, true);
        for s in &mut c.streams {
            s.size.1 = if rng.once_in(3) { header } else { height };
        }
        put(out, rng, &c);
    }
}

/// The header's questions 2, 6 and 9, alone and together.
fn headers(out: &mut Vec<u8>, rng: &mut Rng) {
    for (width, height) in [(16, 16), (15, 16), (14, 16), (7682, 16), (16, 15), (16, 4321), (0, 0), (7680, 4320)] {
        for (shift, room) in [(None, 5), (Some(16), 5), (Some(1), 4), (None, 2), (Some(65535), 2), (Some(15), 5)] {
            if (width, height) != (16, 16) && rng.once_in(2) {
                continue;
            }
            let mut c = calls(rng, 16, 16, shift, false);
            (c.width, c.height, c.room, c.at) = (width, height, room + c.at, c.at);
            c.streams.clear();
            put(out, rng, &c);
        }
    }
    for at in [1 << 63, usize::MAX, usize::MAX - 2] {
        let mut c = calls(rng, 16, 16, None, false);
        c.at = at;
        put(out, rng, &c);
    }
}

/// Whether `n` bytes fit behind `at`.
fn fits(room: usize, at: usize, n: usize) -> bool {
    room.checked_sub(at).is_some_and(|left| left >= n)
}

/// The header's number, by document 01's order.
fn header_number(c: &Calls) -> u32 {
    if c.shift.unwrap_or(0) > 15 {
        2
    } else if !fits(c.room, c.at, header_len(c)) {
        6
    } else {
        Layout::new(c.width, c.height).map_or_else(number, |_| 0)
    }
}

/// A stream's number, by document 01's order, and the state after it.
fn answer(room: usize, s: &Stream, b: State) -> (u32, State) {
    if !fits(room, b.at, 4 + s.len) {
        return (6, b);
    }
    let l = match Layout::new(s.size.0, s.size.1) {
        Ok(l) => l,
        Err(e) => return (number(e), b),
    };
    if s.len > if s.ac { l.max_ac_len() } else { l.max_dc_len() } {
        return (13, b);
    }
    if s.slice >= l.slices() || s.ac != b.ac_turn || s.slice != b.next {
        return (14, b);
    }
    let last_dc = !s.ac && s.slice + 1 == l.slices();
    let next = if last_dc { 0 } else { s.slice + 1 };
    (0, State { ac_turn: s.ac || last_dc, next, at: b.at + 4 + s.len })
}

/// Whether the frame is complete, 1 or 0, or the number that this is refused with.
fn complete((width, height): (usize, usize), b: State) -> u32 {
    Layout::new(width, height).map_or_else(number, |l| (b.ac_turn && (b.next == 0 || b.next == l.slices())) as u32)
}

/// Each stream's number and whether the frame is complete after it, and the frame of those that are accepted.
fn answers(c: &Calls, pool: &[u8]) -> (Vec<(u32, u32)>, Vec<u8>) {
    let l = Layout::new(c.width, c.height).unwrap();
    let (mut dc, mut ac): (Vec<Vec<u8>>, Vec<Vec<u8>>) = (vec![], vec![]);
    let empty = vec![vec![]; l.slices()];
    let mut frame = write(&l, c.interlaced, c.quality as i32, c.shift.unwrap_or(0), &empty, &[]);
    frame.truncate(header_len(c));
    let mut state = State { ac_turn: false, next: 0, at: c.at + frame.len() };
    let mut told = vec![];
    for s in &c.streams {
        let (number, after) = answer(c.room, s, state);
        state = after;
        if number == 0 {
            let bytes: Vec<u8> = (0..s.len).map(|k| pool[(s.at + k) % POOL]).collect();
            frame.extend((s.len as u32).to_le_bytes());
            frame.extend(&bytes);
            if s.ac { &mut ac } else { &mut dc }.push(bytes);
        }
        told.push((number, complete(s.size, state)));
    }
    let whole = dc.len() == l.slices() && (ac.is_empty() || ac.len() == l.slices());
    if whole {
        let by_rust = write(&l, c.interlaced, c.quality as i32, c.shift.unwrap_or(0), &dc, &ac);
        assert_eq!(frame, by_rust, "the model's frame is the Rust's");
    }
    (told, frame)
}

fn put(out: &mut Vec<u8>, rng: &mut Rng, c: &Calls) {
    let pool = rng.bytes(POOL);
    let header = header_number(c);
    let (told, frame) = if header == 0 { answers(c, &pool) } else { (vec![(0, 0); c.streams.len()], vec![]) };
    let short = |out: &mut Vec<u8>, n: usize| out.extend(u16::try_from(n).unwrap().to_le_bytes());
    short(out, c.width);
    short(out, c.height);
    out.extend([c.interlaced as u8, c.quality, header as u8, rng.next() as u8]);
    short(out, c.shift.is_some() as usize);
    short(out, c.shift.unwrap_or(0) as usize);
    short(out, c.room);
    short(out, if header == 0 { c.streams.len() } else { 0 });
    out.extend((c.at as u64).to_le_bytes());
    out.extend((c.at.wrapping_add(frame.len()) as u64).to_le_bytes());
    let mut table = vec![];
    for (s, (number, complete)) in c.streams.iter().zip(told) {
        table.extend([s.ac as u8, s.slice as u8, number as u8, complete as u8]);
        short(&mut table, s.at);
        short(&mut table, s.len);
        short(&mut table, s.size.0);
        short(&mut table, s.size.1);
    }
    record::bytes(out, &table, 12 * STREAMS);
    out.extend(pool);
    record::bytes(out, &frame, FRAME);
}
