//! Codes written and read.

use super::Run;
use crate::gen::streams::{self, Bits};
use crate::gen::Rng;
use crate::ours::{self, bits::Code};
use reference::api::bits::{self, AcSymbol, Cursor, Writer};

pub fn run(run: &mut Run) {
    signed(run);
    while run.more() {
        for _ in 0..20 {
            written(run);
            read(run);
            read_dc(run);
        }
    }
}

fn signed(run: &mut Run) {
    let kind = run.report.kind("bits: signed value to code and back, all values");
    for v in -32768..=32767 {
        let code = bits::to_code(v);
        run.report.same(kind, &bits::from_code(code as u64), &(v as i16), 0, || format!("{v}"));
    }
}

/// A sequence of codes, into a buffer that is full of other bytes: the stream,
/// and nothing else, is changed.
fn written(run: &mut Run) {
    let kind = run.report.kind("bits: symbols written");
    let rng = &mut run.rng;
    let mut w = Writer::default();
    let count = if rng.once_in(4) { rng.between(1, 4) } else { rng.between(1, 200) };
    // A run by itself has no call that takes a lent accumulator.
    let lent = rng.once_in(2);
    let (mut kinds, mut runs, mut codes) = (vec![], vec![], vec![]);
    for _ in 0..count {
        let k = if lent { 2 * rng.below(2) as u8 } else { rng.below(3) as u8 };
        let (run_bits, code_bits) = [(0, 32), (31, 0), (17, 15)][k as usize];
        let n = few_bits(rng, run_bits);
        let v = few_bits(rng, code_bits).max(1);
        match k {
            0 => w.put_value(v),
            1 => w.put_run(n),
            _ => w.put_run_value(n, v),
        }
        kinds.push(k);
        runs.push(n);
        codes.push(v);
    }
    w.align();
    let at = rng.below(20);
    let before = rng.bytes(at + w.bytes().len() + 40);
    let mut wanted = before.clone();
    wanted[at..at + w.bytes().len()].copy_from_slice(w.bytes());
    let mut out = before.clone();
    let end = ours::bits::write(&kinds, &runs, &codes, at, &mut out);
    let equal = end == at + w.bytes().len() && out == wanted;
    let text = || format!("from byte {at}: {kinds:?} {runs:?} {codes:?}");
    run.report.many(kind, equal, kinds.len() as u64, kinds.len(), text);
    if lent {
        let kind = run.report.kind("bits: symbols written through a lent accumulator");
        let mut out = before;
        let end = ours::bits::write_lent(&kinds, &runs, &codes, at, &mut out);
        let equal = end == at + w.bytes().len() && out == wanted;
        run.report.many(kind, equal, kinds.len() as u64, kinds.len(), text);
    }
}

/// A number of at most `most` bits, all bit lengths equally often.
fn few_bits(rng: &mut Rng, most: usize) -> u32 {
    let n = rng.below(most + 1);
    (rng.next() & ((1 << n) - 1)) as u32
}

/// A stream from any bit on: ours, the Rust's cursor, and the Rust bit by bit.
fn read(run: &mut Run) {
    let kind = run.report.kind("bits: AC symbols read");
    let mut s = Bits::default();
    let places = run.rng.between(1, 200);
    streams::ac_codes(&mut run.rng, &mut s, places);
    let (s, start) = any_start(&mut run.rng, s.bytes);
    let mut cursor = Cursor::new(&s, start);
    let mut pos = start;
    let (mut cached, mut single) = (vec![], vec![]);
    for _ in 0..places {
        cached.push(symbol(cursor.symbol().map(|x| (x, cursor.bit_pos()))));
        single.push(symbol(bits::ac_symbol(&s, pos)));
        match single.last().unwrap().num {
            0 => break,
            _ => pos = single.last().unwrap().end as usize,
        }
    }
    let ours = bad_ends_here(ours::bits::read(&s, start, false, places));
    let equal = ours == cached && cached == single;
    run.report.many(kind, equal, single.len() as u64, s.len(), || {
        format!("{s:02x?} from bit {start}: ours {ours:?} cursor {cached:?} bit by bit {single:?}")
    });
}

/// DC codes in a row, from any bit on.
fn read_dc(run: &mut Run) {
    let kind = run.report.kind("bits: DC codes read");
    let mut s = Bits::default();
    let blocks = run.rng.between(1, 60);
    streams::dc_codes(&mut run.rng, &mut s, blocks);
    let (s, start) = any_start(&mut run.rng, s.bytes);
    let mut pos = start;
    let mut wanted = vec![];
    for _ in 0..blocks {
        let code = match bits::dc_code(&s, pos) {
            None => Code::default(),
            Some((None, end)) => Code { run: 1, num: 1, end: end as u64 },
            Some((Some(num), end)) => Code { run: 0, num, end: end as u64 },
        };
        wanted.push(code);
        match code.num {
            0 => break,
            _ => pos = code.end as usize,
        }
    }
    // The number of a zero step is not part of the answer.
    let mut ours = bad_ends_here(ours::bits::read(&s, start, true, blocks));
    ours.iter_mut().filter(|c| c.run == 1 && c.num > 0).for_each(|c| c.num = 1);
    run.report.many(kind, ours == wanted, wanted.len() as u64, s.len(), || {
        format!("{s:02x?} from bit {start}: ours {ours:?} Rust {wanted:?}")
    });
}

/// Damage at times; from the first bit, any bit, or a bit past the end.
fn any_start(rng: &mut Rng, mut s: Vec<u8>) -> (Vec<u8>, usize) {
    if rng.once_in(2) {
        streams::damage(rng, &mut s);
    }
    let any = rng.below(8 * s.len() + 80);
    (s, if rng.once_in(2) { 0 } else { any })
}

fn symbol(s: Option<(AcSymbol, usize)>) -> Code {
    match s {
        None => Code::default(),
        Some((AcSymbol::Run(num), end)) => Code { run: 1, num, end: end as u64 },
        Some((AcSymbol::Value(num), end)) => Code { run: 0, num, end: end as u64 },
    }
}

/// A bad code has no head and no end.
fn bad_ends_here(mut codes: Vec<Code>) -> Vec<Code> {
    if let Some(last) = codes.last_mut() {
        if last.num == 0 {
            *last = Code::default();
        }
    }
    codes
}
