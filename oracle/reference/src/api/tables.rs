//! Quantiser numbers and presets.

pub const PRESETS: usize = crate::tables::QUALITY_COUNT;
pub const ZIGZAG: [usize; 64] = crate::tables::ZIGZAG;

/// Correction, reciprocal and scale of a divisor.
pub fn reciprocal(divisor: u16) -> [u16; 3] {
    crate::dct::probe::reciprocal(divisor)
}

/// The numbers of one preset, natural order.
pub struct Quant {
    /// Divisors (64).
    pub decode: [u16; 64],
    /// Correction (64), reciprocal (64), scale (64).
    pub encode: [u16; 192],
}

pub fn quant(preset: usize) -> Quant {
    let t = crate::dct::QuantTables::new(preset);
    Quant { decode: t.decode, encode: t.encode }
}

/// Effective quality and preset.
pub fn quality_preset(quality: i32) -> (i32, usize) {
    crate::layout::quality_preset(quality)
}
