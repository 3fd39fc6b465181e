//! Records of 12 bytes: kind, preset or quality, place, four numbers answered.

use crate::gen::Rng;
use reference::api::tables::{quality_preset, quant, PRESETS, ZIGZAG};

pub fn list(_: &mut Rng) -> (Vec<u8>, usize) {
    let mut out = Vec::new();
    for preset in 0..PRESETS {
        let q = quant(preset);
        for place in 0..64 {
            let n = [q.decode[place], q.encode[place], q.encode[64 + place], q.encode[128 + place]];
            put(&mut out, 0, preset, place, n);
        }
    }
    for (place, natural) in ZIGZAG.iter().enumerate() {
        put(&mut out, 1, 0, place, [*natural as u16, 0, 0, 0]);
    }
    for quality in 0..=255usize {
        let (kept, preset) = quality_preset(quality as i32);
        put(&mut out, 2, quality, 0, [kept as u16, preset as u16, 0, 0]);
    }
    let count = out.len() / 12;
    (out, count)
}

fn put(out: &mut Vec<u8>, kind: u8, preset: usize, place: usize, numbers: [u16; 4]) {
    out.extend([kind, preset as u8, place as u8, 0]);
    out.extend(numbers.iter().flat_map(|x| x.to_le_bytes()));
}
