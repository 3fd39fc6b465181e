//! Records of 148 bytes: width, height, length, a stream asked for, the header
//! or the refusal, the stream's place or the refusal, the frame.

use crate::gen::Rng;
use reference::api::layout::{number, parse, write, Layout};

/// The longest frame of a record.
const MOST: usize = 128;

pub fn list(rng: &mut Rng) -> (Vec<u8>, usize) {
    let mut out = Vec::new();
    for (width, height) in [(16, 16), (18, 33)] {
        let l = Layout::new(width, height).unwrap();
        for shift in [0, 3] {
            for with_ac in [true, false] {
                let streams =
                    |n: usize| -> Vec<Vec<u8>> { (0..l.slices()).map(|i| vec![i as u8; (i + n) % 4]).collect() };
                let ac = if with_ac { streams(2) } else { vec![] };
                let frame = write(&l, true, 80, shift, &streams(1), &ac);
                changed(&mut out, rng, width, height, &frame);
            }
        }
    }
    for height in [480, 479] {
        let l = Layout::new(16, height).unwrap();
        let mut dc = vec![vec![]; l.slices()];
        dc[1] = vec![7, 8];
        for shift in [0, 3] {
            tall(&mut out, 16, height, &write(&l, true, 80, shift, &dc, &[]));
        }
    }
    // Few bytes, in heights that are interlaced and in sizes that are refused.
    for (width, height) in
        [(16, 480), (16, 576), (16, 1080), (16, 720), (17, 16), (14, 16), (16, 15), (7682, 16), (16, 4321)]
    {
        for frame in [&[][..], &[0], &[1, 80], &[2, 80, 1], &[3, 4, 1, 80, 1], &[0, 80, 30, 0, 0, 0, 0]] {
            put(&mut out, width, height, frame, false, 0);
        }
    }
    // All streams empty: no other bytes than the lengths.
    for (height, byte) in [(80, 0), (80, 1), (80, 2), (96, 1)] {
        let l = Layout::new(16, height).unwrap();
        let empty = vec![vec![]; l.slices()];
        let mut frame = write(&l, false, 50, 0, &empty, &empty);
        frame[0] = byte;
        frame.truncate(MOST);
        for slice in 0..8 {
            put(&mut out, 16, height, &frame, slice % 2 == 1, slice);
        }
    }
    edges(&mut out);
    let count = out.len() / 148;
    (out, count)
}

/// Limits of a header and of a stream, each told by which question is the first "no" to a frame of a few bytes.
fn edges(out: &mut Vec<u8>) {
    // The count is stored modulo 256: where it is right, the first length is not whole.
    for height in [4064, 4065, 4080, 4081, 4096, 4097, 4112, 4320] {
        for count in [254, 255, 0, 1, 14] {
            put(out, 16, height, &[1, 80, count, 0, 0], false, 0);
        }
    }
    for shift in [14, 15, 16, 17, 255] {
        put(out, 16, 16, &[3, shift, 1, 80, 1, 0, 0, 0, 0], false, 0);
    }
    // A length within its limit is followed by too few bytes.
    for width in [16, 18, 24, 26, 1920, 7674, 7680] {
        let l = Layout::new(width, 16).unwrap();
        let around = |n: usize| [n - 1, n, n + 1].map(|n| (n as u32).to_le_bytes());
        for len in around(l.max_dc_len()) {
            put(out, width, 16, &[&[1, 80, 1][..], &len, &[7, 7]].concat(), false, 0);
        }
        for len in around(l.max_ac_len()) {
            put(out, width, 16, &[&[1, 80, 1, 0, 0, 0, 0][..], &len, &[7, 7]].concat(), true, 0);
        }
    }
}

/// A frame with every cut, bytes behind it, and every byte changed.
fn changed(out: &mut Vec<u8>, rng: &mut Rng, width: usize, height: usize, frame: &[u8]) {
    let mut asked = 0;
    let mut both = |frame: &[u8]| {
        put(out, width, height, frame, asked % 2 == 1, asked / 2 % 4);
        asked += 1;
    };
    for _ in 0..8 {
        both(frame);
    }
    for cut in 0..frame.len() {
        both(&frame[..cut]);
    }
    for more in 1..6 {
        both(&[frame, &rng.bytes(more)[..]].concat());
    }
    for at in 0..frame.len() {
        let all = [255, rng.next() as u8, 0, 1, 2, 3, 4, 16];
        for b in all[..if at < 5 { 8 } else { 2 }].iter().copied() {
            let mut f = frame.to_vec();
            f[at] = b;
            both(&f);
        }
    }
}

/// A frame of 30 slices, which is interlaced at height 480: each format byte, and
/// streams at both ends.
fn tall(out: &mut Vec<u8>, width: usize, height: usize, frame: &[u8]) {
    let format = if frame[0] == 3 { 2 } else { 0 };
    for byte in 0..5 {
        let mut f = frame.to_vec();
        f[format] = byte;
        for slice in [0, 1, 2, 29, 30, 255] {
            put(out, width, height, &f, false, slice);
            put(out, width, height, &f, true, slice);
        }
    }
    for cut in (0..frame.len()).step_by(7) {
        put(out, width, height, &frame[..cut], false, 0);
    }
}

fn put(out: &mut Vec<u8>, width: usize, height: usize, frame: &[u8], ac: bool, slice: usize) {
    let read = Layout::new(width, height).and_then(|l| parse(&l, frame)).map_err(number);
    let header = match &read {
        Err(x) => [*x as u8, 0, 0, 0, 0, 0],
        Ok(c) => [0, c.interlaced as u8, c.quality as u8, c.dc_shift as u8, c.header_len as u8, !c.ac.is_empty() as u8],
    };
    // A slice that is not there, and AC where a frame has none, is refusal 14.
    let place =
        read.and_then(|c| if ac { c.ac.get(slice).copied().ok_or(14) } else { c.dc.get(slice).copied().ok_or(14) });
    let view = match place {
        Err(x) => [x as u8, 0, 0],
        Ok((at, n)) => [0, at as u8, n as u8],
    };
    out.extend((width as u16).to_le_bytes());
    out.extend((height as u16).to_le_bytes());
    out.extend([frame.len() as u8, ac as u8, slice as u8]);
    out.extend(header);
    out.extend(view);
    out.extend([0; 4]);
    let mut bytes = [0; MOST];
    bytes[..frame.len()].copy_from_slice(frame);
    out.extend(bytes);
}
