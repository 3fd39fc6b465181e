//! Symbols, and transforms with their quantisers: the parts of a plane's time.

use super::{Content, Table};
use crate::gen::Rng;
use crate::ours;
use reference::api::bits::{AcSymbol, Cursor, Writer};
use reference::api::tables::quant;
use reference::api::{dct, Depth, PATHS};
use std::cell::RefCell;
use std::hint::black_box;

/// Symbols written and read: runs with values as planes have them.
pub fn symbols(t: &mut Table) {
    const N: usize = 100_000;
    let mut rng = Rng::new(7);
    let runs: Vec<u32> = (0..N).map(|_| if rng.once_in(2) { 0 } else { rng.below(12) as u32 }).collect();
    let codes: Vec<u32> = (0..N).map(|_| 2 + (rng.next() as u32 & ((1 << rng.between(1, 6)) - 1))).collect();
    let mut out = vec![0u8; 8 * N];
    let mut ours = || {
        black_box(ours::bits::write_pairs(&runs, &codes, 0, black_box(&mut out)));
    };
    let mut rust = || {
        let mut w = Writer::with_room(8 * N);
        for (n, v) in runs.iter().zip(&codes) {
            w.put_run_value_unreserved(*n, *v);
        }
        w.align();
        black_box(w.bytes());
    };
    t.row("symbol written (run and value)", N, &mut [&mut ours, &mut rust]);

    let end = ours::bits::write_pairs(&runs, &codes, 0, &mut out);
    let s = &out[..end];
    let count = ours::bits::read(s, 0, false, 2 * N).len();
    let room = RefCell::new(vec![0u64; 3 * count]);
    let mut ours = || {
        black_box(ours::bits::read_into(black_box(s), 0, false, &mut room.borrow_mut()));
    };
    let mut rust = || {
        let mut room = room.borrow_mut();
        let mut c = Cursor::new(black_box(s), 0);
        for k in 0..count {
            let Some(x) = c.symbol() else { break };
            let (run, num) = match x {
                AcSymbol::Run(n) => (1, n),
                AcSymbol::Value(v) => (0, v),
            };
            room[3 * k] = run;
            room[3 * k + 1] = num;
            room[3 * k + 2] = c.bit_pos() as u64;
        }
        black_box(&room);
    };
    t.row("AC symbol read", count, &mut [&mut ours, &mut rust]);
}

/// Transforms with quantiser, of a row of blocks.
pub fn blocks(t: &mut Table) {
    const STRIDE: usize = 1920;
    const N: usize = STRIDE / 8;
    let preset = 8;
    let q = quant(preset);
    let (eight, ten) = (Content::Mixed.plane::<u8>(STRIDE).2, Content::Mixed.plane::<u16>(STRIDE).2);
    let mut z = [0i16; 64];
    let mut ours = || ours::dct::forward_row8(black_box(&eight), STRIDE, preset, &mut z);
    let [mut sse2, mut portable] = PATHS.map(|path| {
        let (rows, q) = (&eight, &q);
        move || {
            black_box(dct::forward_row(path, black_box(rows), STRIDE, Depth::Eight, &q.encode, -128));
        }
    });
    let name = "forward transform, quantiser and scan of a block, 8-bit";
    t.row(name, N, &mut [&mut ours, &mut sse2, &mut portable]);
    let mut ours = || ours::dct::forward_row16(black_box(&ten), STRIDE, preset, &mut z);
    let [mut sse2, mut portable] = PATHS.map(|path| {
        let (rows, q) = (&ten, &q);
        move || {
            black_box(dct::forward_row(path, black_box(rows), STRIDE, Depth::Ten, &q.encode, -512));
        }
    });
    t.row("forward transform, quantiser and scan of a block, 10-bit", N, &mut [&mut ours, &mut sse2, &mut portable]);

    let nat: [i16; 64] = core::array::from_fn(|i| if i % 5 == 0 { 40 - i as i16 } else { 0 });
    let rows = RefCell::new(eight.clone());
    let mut ours = || ours::dct::inverse_row8(black_box(&nat), preset, &mut rows.borrow_mut(), STRIDE);
    let [mut sse2, mut portable] = PATHS.map(|path| {
        let (rows, nat, q) = (&rows, &nat, &q);
        move || {
            let mut rows = rows.borrow_mut();
            for x in (0..STRIDE).step_by(8) {
                dct::idct8(path, black_box(nat), &q.decode, &mut rows[x..], STRIDE, 128);
            }
        }
    });
    let name = "dequantising, inverse transform and store of a block, 8-bit";
    t.row(name, N, &mut [&mut ours, &mut sse2, &mut portable]);
    let rows = RefCell::new(ten.clone());
    let mut ours = || ours::dct::inverse_row16(black_box(&nat), preset, &mut rows.borrow_mut(), STRIDE);
    let [mut sse2, mut portable] = PATHS.map(|path| {
        let (rows, nat, q) = (&rows, &nat, &q);
        move || {
            let mut rows = rows.borrow_mut();
            for x in (0..STRIDE).step_by(8) {
                dct::idct16(path, black_box(nat), &q.decode, &mut rows[x..], STRIDE, 512);
            }
        }
    });
    t.row(
        "dequantising, inverse transform and store of a block, 10-bit",
        N,
        &mut [&mut ours, &mut sse2, &mut portable],
    );
}
