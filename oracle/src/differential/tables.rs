//! Quantiser numbers, zig-zag, presets: small enough to compare whole.

use super::Run;
use crate::ours;
use reference::api::tables::{quality_preset, quant, reciprocal, PRESETS, ZIGZAG};

pub fn run(run: &mut Run) {
    let rule = run.report.kind("tables: two high multiplies are the rounded division (1,600 entries x 32,769)");
    let pinned = run.report.kind("tables: entries are reciprocal of their divisor");
    let encode = run.report.kind("tables: corrections, reciprocals and scales of a preset");
    let decode = run.report.kind("tables: divisors of a preset");
    for preset in 0..PRESETS {
        let q = quant(preset);
        run.report.same(encode, &ours::tables::encode(preset), &q.encode, preset, || format!("preset {preset}"));
        run.report.same(decode, &ours::tables::decode(preset), &q.decode, preset, || format!("preset {preset}"));
        for place in 0..64 {
            let d = q.decode[place];
            let [c, f, s] = [q.encode[place], q.encode[64 + place], q.encode[128 + place]];
            run.report.same(pinned, &[c, f, s], &reciprocal(d), place, || format!("preset {preset} place {place}"));
            let wrong = (0..=32768u32).find(|x| {
                let one = (((x + c as u32) & 0xffff) * f as u32) >> 16;
                let two = (one * s as u32) >> 16;
                two != (x + d as u32 / 2) / d as u32
            });
            run.report.check(rule, wrong.is_none(), place, || format!("preset {preset} place {place} x {wrong:?}"));
        }
    }
    let order = run.report.kind("tables: zig-zag scan");
    run.report.same(order, &ours::tables::zigzag(), &ZIGZAG, 0, || "the scan".into());
    let presets = run.report.kind("tables: quality_preset 0..255");
    for quality in 0..=255u8 {
        let answer = quality_preset(quality as i32);
        run.report.same(presets, &ours::tables::quality_preset(quality), &answer, 0, || format!("quality {quality}"));
    }
}
