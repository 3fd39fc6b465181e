//! Crate tables, by crates/probe/src/of_tables.rt; the presets through the library that programs link (include/vmx.h).

unsafe extern "C" {
    safe fn probe_tables_encode(preset: usize, i: usize) -> u16;
    safe fn probe_tables_decode(preset: usize, i: usize) -> u16;
    safe fn probe_tables_zigzag(i: usize) -> u8;
    safe fn vmx_quality_preset(quality: u8, kept: &mut u8, preset: &mut usize);
}

/// Correction, reciprocal and scale of a preset's places.
pub fn encode(preset: usize) -> [u16; 192] {
    core::array::from_fn(|i| probe_tables_encode(preset, i))
}

/// The divisors of a preset.
pub fn decode(preset: usize) -> [u16; 64] {
    core::array::from_fn(|i| probe_tables_decode(preset, i))
}

pub fn zigzag() -> [usize; 64] {
    core::array::from_fn(|i| probe_tables_zigzag(i) as usize)
}

/// The quality in force for q, and its preset.
pub fn quality_preset(q: u8) -> (i32, usize) {
    let (mut kept, mut preset) = (0, 0);
    vmx_quality_preset(q, &mut kept, &mut preset);
    (kept as i32, preset)
}
