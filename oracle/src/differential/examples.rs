//! The entries marked with a dot in document 01, and the corner cases of its
//! rules, against both paths of the Rust.

use super::Run;
use reference::api::bits::{self, AcSymbol, Writer};
use reference::api::tables::{quality_preset, quant, reciprocal};
use reference::api::{dct, lanes, slice, PATHS};

pub fn run(run: &mut Run) {
    let k = run.report.kind("examples: document 01, entries with a dot");
    let mut holds = |what: &str, ok: bool| run.report.check(k, ok, 0, || what.into());
    numbers(&mut holds);
    codes(&mut holds);
    planes(&mut holds);
    let k = run.report.kind("examples: corner cases");
    let mut holds = |what: &str, ok: bool| run.report.check(k, ok, 0, || what.into());
    corners(&mut holds);
}

fn numbers(holds: &mut dyn FnMut(&str, bool)) {
    holds("16 gives 8, 32768, 8192", reciprocal(16) == [8, 32768, 8192]);
    holds("19 gives 10, 55188, 4096", reciprocal(19) == [10, 55188, 4096]);
    holds("quality 36 is preset 24", quality_preset(36).1 == 24);
    holds("quality 35 is preset 0 with quality 35", quality_preset(35) == (35, 0));
    holds("quality 100 is preset 0 with quality 99", quality_preset(100) == (99, 0));
}

fn codes(holds: &mut dyn FnMut(&str, bool)) {
    for (v, code) in [(1, 3), (-1, 2), (32767, 65535), (-32768, 65536)] {
        holds("signed value to code", bits::to_code(v) == code && bits::from_code(code as u64) as i32 == v);
    }
    holds("code 65537 reads as -32768", bits::from_code(65537) == -32768);
    let mut w = Writer::default();
    w.put_run(1);
    w.put_value(bits::to_code(-1));
    let len = w.len_bits();
    w.align();
    holds("run 1 then value -1 is 11010", len == 5 && w.bytes() == [0b1101_0000]);
    let mut w = Writer::default();
    w.put_run_value(1, bits::to_code(-1));
    w.align();
    holds("run 1 and value -1 together", w.bytes() == [0b1101_0000]);
    holds("00 six times then 01 has z = 54: read", bits::dc_code(&[0, 0, 0, 0, 0, 0, 1], 0).is_some());
    holds("00 seven times has z = 55: refused", bits::dc_code(&[0; 7], 0).is_none());
}

fn planes(holds: &mut dyn FnMut(&str, bool)) {
    let q = quant(0);
    let streams: [(u8, u32, &[u8]); 4] = [
        (128, 0, &[0xF0]),
        (255, 0, &[0x00, 0x3F, 0x8E]),
        (0, 0, &[0x00, 0x10, 0x01, 0x80]),
        (255, 3, &[0x01, 0xFF, 0x80]),
    ];
    for path in PATHS {
        for (v, shift, dc) in streams {
            let found = slice::encode_plane(path, &[v; 128], 8, 0, &q.encode, shift);
            holds("a constant plane's streams", found == (dc.to_vec(), vec![0x80, 0x80]));
        }
        let mut rows = [7u8; 128];
        let ends = slice::decode_plane(path, &mut rows, 8, 0, &q.decode, 0, (&[], 0), (&[], 0));
        holds("two empty streams decode to all 128, ends 1 and 32", ends == Some((1, 32)) && rows == [128; 128]);
    }
    // A DC of 1020: the streams of all 255 at place 0 are 1016, so code 1020 itself.
    let mut w = Writer::default();
    w.put_value(bits::to_code(1020));
    w.put(0b11, 2);
    w.align();
    let (mut a, mut b) = ([9u8], [9u8]);
    let end = slice::decode_plane_preview(&mut a, &mut b, 8, 0, 0, (w.bytes(), 0));
    holds("a DC of 1020 at level 128 previews as 0", end == Some(w.bytes().len()) && (a, b) == ([0], [0]));
    let mut flat = [9u8; 64];
    dct::broadcast_dc8(1020, &mut flat, 8, 128);
    holds("a DC of 1020 at level 128 is 255 in a flat block", flat == [255; 64]);
}

fn corners(holds: &mut dyn FnMut(&str, bool)) {
    let q = quant(0);
    // What the Rust leaves of what it gives up on (docs/DIFFERENCES.md): ours leaves nothing.
    for path in PATHS {
        let mut rows = [7u8; 128];
        let dc = [0xC0, 0, 0, 0, 0, 0, 0, 0];
        let ends = slice::decode_plane(path, &mut rows, 8, 0, &q.decode, 0, (&dc, 0), (&[], 0));
        holds(
            "the Rust leaves block 0 of a plane whose block 1 is bad",
            ends.is_none() && rows[..64] == [128; 64] && rows[64..] == [7; 64],
        );
        let (mut x, mut y) = ([7u8], [7u8]);
        let end = slice::decode_plane_preview(&mut x, &mut y, 8, 0, 0, (&dc, 0));
        holds("and that block's preview byte", end.is_none() && (x, y) == ([128], [7]));
    }
    let mut set = vec![(8, vec![7u8; 128]), (8, vec![7u8; 128])];
    let ok = slice::decode_one_slice(&mut set, &[0xF0, 0, 0, 0, 0, 0, 0, 0], &[], &q.decode, 0);
    holds(
        "the Rust leaves plane 0 of a slice whose plane 1 is bad",
        !ok && set[0].1 == [128; 128] && set[1].1 == [7; 128],
    );
    holds("coefficient 2048 at place 0 becomes -2048 for 8-bit", {
        let a = lanes::two(PATHS[0], "mullo", [2048; 8], [q.decode[0] as i16; 8]);
        lanes::shift(PATHS[0], "srai16", a, 4) == [-2048; 8]
    });
    let decode8 = |place, shift, dc: &[u8], ac: &[u8], path| {
        let mut rows = [77u8; 128];
        slice::decode_plane(path, &mut rows, 8, place, &q.decode, shift, (dc, 0), (ac, 0)).map(|e| (e, rows))
    };
    for path in PATHS {
        // Block 0 of an all-zero plane is transformed: its run was read there.
        let (_, rows) = decode8(1, 0, &[0x13, 0x80], &[0x80, 0x80], path).unwrap();
        let column = |x: usize| -> [u8; 8] { core::array::from_fn(|y| rows[8 * y + x]) };
        let columns = (0..8).all(|x| column(x) == [1, 1, 0, 0, 0, 1, 0, 0]);
        holds("block 0 of an all-zero plane is transformed", columns && rows[64..] == [1; 64]);
        let (dc, ac) = slice::encode_plane(path, &[255u8; 128], 8, 1, &q.encode, 4);
        holds("all 255, place 1, shift 4 has DC 00 80 E0", dc == [0x00, 0x80, 0xE0]);
        let (_, rows) = decode8(1, 4, &dc, &ac, path).unwrap();
        holds("its blocks are 0 and 255", rows[..64] == [0; 64] && rows[64..] == [255; 64]);
        holds("a bad DC code", decode8(0, 0, &[0; 7], &[], path).is_none());
        holds("a bad AC value", decode8(0, 0, &[], &[0; 7], path).is_none());
        holds("a bad AC run", decode8(0, 0, &[], &[0x80, 0, 0, 0, 0, 0, 0, 0x7F], path).is_none());
        let long = decode8(0, 0, &[], &[0x80, 0, 0, 0, 0, 0, 0], path);
        holds("a run of 2^56 - 1 is read", long.is_some_and(|((_, end), _)| end == 14));
        holds("six zero bytes are read", decode8(0, 0, &[], &[0; 6], path).is_some());
        // Code 131072 is cut to 0 and replaces an AC value at place 0; `10` keeps it.
        let at0 = |dc: &[u8]| {
            let mut w = Writer::default();
            w.put_value(bits::to_code(100));
            w.put_run(127);
            w.align();
            decode8(0, 0, dc, w.bytes(), path).unwrap().1[0]
        };
        holds("a DC code cut to 0 replaces an AC value at place 0", at0(&[0, 0, 0x40, 0, 0x18]) == 128);
        holds("a DC code that begins with one keeps it", at0(&[0b1011_0000]) != 128 && at0(&[0xF0]) == at0(&[0xB0]));
    }
    let sym = bits::ac_symbol(&[0x80, 0, 0, 0, 0, 0, 0], 0);
    holds("the run's length", sym.map(|s| s.0) == Some(AcSymbol::Run((1 << 56) - 1)));
}
