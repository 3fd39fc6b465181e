//! Private parts of dct.rs.

pub(crate) fn reciprocal(divisor: u16) -> [u16; 3] {
    super::reciprocal(divisor)
}
