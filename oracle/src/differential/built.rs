//! Frames built stream by stream, and shown rows.

use super::Run;
use crate::gen::frames::{self, Parts};
use crate::gen::Rng;
use crate::ours::builder::{self, State};
use crate::ours::shown;
use crate::questions::{self, NO_LIMIT, NO_ROOM, NO_SHIFT, NO_TURN, SHIFT_MAX, SLICES_MAX};
use reference::api::layout::{number, write, Layout};

pub fn run(run: &mut Run) {
    by_lengths(run);
    at_the_limit(run);
    while run.more() {
        for _ in 0..20 {
            built(run);
            any_stream(run);
            header_refused(run);
            rows(run);
        }
    }
}

/// The streams in their turn: kind, slice, bytes.
fn turns(p: &Parts) -> Vec<(bool, usize, &Vec<u8>)> {
    let dc = p.dc.iter().enumerate().map(|(slice, s)| (false, slice, s));
    let ac = p.ac.iter().enumerate().map(|(slice, s)| (true, slice, s));
    dc.chain(ac).collect()
}

/// A frame built whole is `write`'s, complete after its last DC stream and after its last AC stream and at no other call; a
/// stream past its limit is refused, which `write` does not.
fn built(run: &mut Run) {
    let kind = run.report.kind("frames: built, as write writes them");
    let limits = run.report.kind("frames: streams past their limit refused by the builder");
    let p = frames::parts(&mut run.rng);
    let l = Layout::new(p.width, p.height).unwrap();
    let size = (p.width, p.height);
    let frame = write(&l, p.interlaced, p.quality as i32, p.dc_shift, &p.dc, &p.ac);
    let at = run.rng.below(7);
    let after = run.rng.below(7);
    let before = run.rng.bytes(at + frame.len() + after);
    let mut out = before.clone();
    let mut state = match builder::start(size, p.interlaced, p.quality, p.dc_shift, &mut out, at) {
        Ok(state) => state,
        Err(x) => return run.report.check(kind, false, 0, || format!("header refused with {x}: {p:?}")),
    };
    run.report.same(kind, &builder::complete(size, &state), &Ok(false), 0, || format!("after the header: {p:?}"));
    let mut whole = true;
    for (ac, slice, bytes) in turns(&p) {
        let limit = if ac { l.max_ac_len() } else { l.max_dc_len() };
        let (was, held) = (state, out.clone());
        let number = builder::stream(size, &mut state, ac, slice, bytes, &mut out);
        if bytes.len() > limit {
            whole = false;
            run.report.same(limits, &(number, state, &out), &(NO_LIMIT, was, &held), bytes.len(), || {
                format!("ac {ac} slice {slice} of {} bytes, limit {limit}", bytes.len())
            });
            break;
        }
        if number != 0 {
            return run.report.check(kind, false, bytes.len(), || format!("stream refused with {number}: {p:?}"));
        }
        let last = slice + 1 == l.slices();
        run.report
            .same(kind, &builder::complete(size, &state), &Ok(last), 0, || format!("ac {ac} slice {slice}: {p:?}"));
    }
    if whole {
        let mut wanted = before;
        wanted[at..at + frame.len()].copy_from_slice(&frame);
        run.report.same(kind, &(out, state.at), &(wanted, at + frame.len()), frame.len(), || format!("{p:?}"));
        // Complete: anything more is out of turn. Without AC, its first stream would still be in turn.
        let mut full = frame.clone();
        full.extend([0; 8]);
        let done = if p.ac.is_empty() { (false, 0) } else { (true, l.slices()) };
        let mut s = State { at: 0, ..state };
        let held = s;
        let found = builder::stream(size, &mut s, done.0, done.1, &[], &mut full);
        run.report.same(kind, &(found, s), &(NO_TURN, held), 0, || format!("after the last stream: {p:?}"));
    }
}

/// Whether `n` bytes fit behind `at`.
fn fits(room: usize, at: usize, n: usize) -> bool {
    room.checked_sub(at).is_some_and(|left| left >= n)
}

/// A stream that is handed over with any state and any size, whatever the frame was begun with: the first no in document
/// 01's order 6, 9, 13, 14. The limits are those of the call's width, the slice count that of its height.
fn any_stream(run: &mut Run) {
    let kind = run.report.kind("frames: builder's streams, any state and size, 6, 9, 13, 14");
    let rng = &mut run.rng;
    let size = if rng.once_in(3) { frames::any_dimensions(rng) } else { (16 + 2 * rng.below(9), rng.between(16, 60)) };
    let l = Layout::new(size.0, size.1).map_err(number);
    let slices = l.as_ref().map_or(3, |l| l.slices());
    let ac = rng.once_in(2);
    let limit = l.as_ref().map_or(512, |l| if ac { l.max_ac_len() } else { l.max_dc_len() });
    let other = l.as_ref().map_or(896, |l| if ac { l.max_dc_len() } else { l.max_ac_len() });
    let ac_turn = if rng.once_in(2) { ac as u32 } else { rng.pick(&[0, 1, 2, u32::MAX]) };
    let mut state = State { ac_turn, next: any_slice(rng, slices), at: rng.below(3) };
    let slice = if rng.once_in(3) { any_slice(rng, slices) } else { state.next };
    let len = rng.pick(&[0, 3, limit, limit + 1, other, other + 1]);
    let room = len + 4;
    let n = if rng.once_in(4) { rng.below(room) } else { room + rng.below(6) };
    let at = state.at;
    let bytes = rng.bytes(len);
    let before = rng.bytes(n);
    let mut out = before.clone();
    let number = if !fits(n, at, room) {
        NO_ROOM
    } else if let Err(x) = l {
        x
    } else if len > limit {
        NO_LIMIT
    } else if slice >= slices || slice != state.next || ac != (ac_turn > 0) {
        NO_TURN
    } else {
        0
    };
    let (mut wanted, held) = (before, state);
    let mut moved = held;
    if number == 0 {
        wanted[at..at + 4].copy_from_slice(&(len as u32).to_le_bytes());
        wanted[at + 4..at + room].copy_from_slice(&bytes);
        let turns = !ac && slice + 1 == slices;
        moved = State { ac_turn: (ac || turns) as u32, next: if turns { 0 } else { slice + 1 }, at: at + room };
    }
    let found = builder::stream(size, &mut state, ac, slice, &bytes, &mut out);
    let text = || format!("{size:?} state {held:?} ac {ac} slice {slice} of {len} bytes into {n}");
    run.report.same(kind, &(found, state, &out), &(number, moved, &wanted), len, text);
    let complete = l.map(|_| state.ac_turn > 0 && (state.next == 0 || state.next == slices));
    run.report.same(kind, &builder::complete(size, &state), &complete, 0, text);
}

fn any_slice(rng: &mut Rng, slices: usize) -> usize {
    match rng.below(3) {
        0 => rng.next() as usize,
        1 => slices,
        _ => rng.below(slices),
    }
}

/// The header's questions: 2, 6, 9.
fn header_refused(run: &mut Run) {
    let kind = run.report.kind("frames: builder's header refused, 2, 6, 9");
    let rng = &mut run.rng;
    let size = frames::any_dimensions(rng);
    let shift = match rng.below(3) {
        0 => 0,
        1 => rng.below(18) as u32,
        _ => rng.next() as u32,
    };
    let n = rng.below(10);
    let at = if rng.once_in(4) { rng.next() as usize } else { rng.below(8) };
    let header = if shift > 0 { 5 } else { 3 };
    let wanted = if shift > SHIFT_MAX {
        NO_SHIFT
    } else if !fits(n, at, header) {
        NO_ROOM
    } else if let Err(e) = Layout::new(size.0, size.1) {
        number(e)
    } else {
        0
    };
    if wanted == 0 {
        return;
    }
    let before = rng.bytes(n);
    let mut out = before.clone();
    let found = builder::start(size, rng.once_in(2), 80, shift, &mut out, at);
    run.report
        .same(kind, &(found, &out), &(Err(wanted), &before), n, || format!("{size:?} shift {shift} room {n} at {at}"));
}

/// Where the rows lie, for pictures of any length, which are not lent: every stride, slices around the limit.
fn by_lengths(run: &mut Run) {
    let kind = run.report.kind("shown rows, by the pictures' lengths");
    for stride in (0..=7700).step_by(4) {
        for slice in [0, 1, SLICES_MAX - 2, SLICES_MAX - 1, SLICES_MAX, SLICES_MAX + 1] {
            let end = (slice + 1) * 16 * stride;
            for (new, held) in
                [(end, end), (end, end.saturating_sub(1)), (end.saturating_sub(1), end), (usize::MAX, end)]
            {
                for verdict in [0, 8] {
                    let wanted = match questions::shown(new, held, stride, slice) {
                        0 => Ok((verdict == 0, slice * 16 * stride, 16 * stride)),
                        number => Err(number),
                    };
                    let found = shown::place(new, held, stride, slice, verdict);
                    run.report.same(kind, &found, &wanted, 0, || {
                        format!("stride {stride} slice {slice} verdict {verdict} lengths {new} {held}")
                    });
                }
            }
        }
    }
}

/// The rows themselves of the last slice that may be shown, out of pictures that are a slice longer.
fn at_the_limit(run: &mut Run) {
    let stride = 8;
    let n = (SLICES_MAX + 1) * 16 * stride;
    for slice in [SLICES_MAX - 1, SLICES_MAX] {
        for verdict in [0, 14] {
            let (new, held) = (run.rng.bytes(n), run.rng.bytes(n));
            shown_rows(run, (&new, &held), stride, slice, verdict);
        }
    }
}

/// The slice's sixteen rows out of the new picture where it was accepted, out of the held one where not.
fn rows(run: &mut Run) {
    let rng = &mut run.rng;
    let stride = if rng.once_in(6) { rng.pick(&[0, 4, 12, 7688, usize::MAX]) } else { 8 * rng.between(1, 3) };
    let slices = rng.between(1, 4);
    let slice = match rng.below(8) {
        0 => slices,
        1 => rng.pick(&[SLICES_MAX - 1, SLICES_MAX, SLICES_MAX + 1, usize::MAX, usize::MAX / 128]),
        _ => rng.below(slices),
    };
    let len = |rng: &mut Rng| (slices * 16 * stride.min(24)).saturating_sub(if rng.once_in(6) { 1 } else { 0 });
    let (n, m) = (len(rng), len(rng));
    let (new, held) = (rng.bytes(n), rng.bytes(m));
    let verdict = if rng.once_in(2) { 0 } else { rng.pick(&[1, 8, 14, u32::MAX]) };
    shown_rows(run, (&new, &held), stride, slice, verdict);
    let kind = run.report.kind("shown time");
    let (a, b) = (run.rng.next(), run.rng.next());
    let time = if verdict == 0 { a } else { b };
    run.report.same(kind, &shown::time(a, b, verdict), &time, 0, || format!("verdict {verdict}"));
}

/// Both depths, by the exported call's offset and length, and as the part that is handed back.
fn shown_rows(run: &mut Run, (new, held): (&[u8], &[u8]), stride: usize, slice: usize, verdict: u32) {
    let kind = run.report.kind("shown rows");
    let (n, m) = (new.len(), held.len());
    let wanted = match questions::shown(n, m, stride, slice) {
        0 => {
            let from = if verdict == 0 { new } else { held };
            Ok(from[slice * 16 * stride..(slice + 1) * 16 * stride].to_vec())
        }
        number => Err(number),
    };
    let text = || format!("stride {stride} slice {slice} verdict {verdict} lengths {n} {m}");
    run.report.same(kind, &shown::rows(new, held, stride, slice, verdict), &wanted, n, text);
    let wide = |v: &[u8]| -> Vec<u16> { v.iter().map(|b| 257 * *b as u16).collect() };
    let (new16, held16) = (wide(new), wide(held));
    let found = shown::rows(&new16, &held16, stride, slice, verdict);
    run.report.same(kind, &found, &wanted.clone().map(|v| wide(&v)), n, text);
    // The same rows, or an empty part beside the number.
    let (part, number) = match wanted {
        Ok(rows) => (rows, 0),
        Err(number) => (vec![], number),
    };
    let kind = run.report.kind("shown rows as a part of a picture");
    let found = shown::part10(&new16, &held16, stride, slice, verdict);
    run.report.same(kind, &found, &(wide(&part), number), n, text);
    run.report.same(kind, &shown::part8(new, held, stride, slice, verdict), &(part, number), n, text);
}
