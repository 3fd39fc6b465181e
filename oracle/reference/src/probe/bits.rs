//! Private parts of bits.rs: positions.

use super::{BitAcc, BitReader};

impl BitAcc {
    pub(crate) fn bytes(&self) -> usize {
        self.pos
    }
    pub(crate) fn pending(&self) -> u32 {
        self.nbits
    }
}

impl<'a> BitReader<'a> {
    pub(crate) fn at(data: &'a [u8], pos: usize) -> Self {
        Self { data, pos }
    }
    pub(crate) fn bit_pos(&self) -> usize {
        self.pos
    }
}

/// `super::AcSymbol`, for callers outside the crate.
#[derive(Clone, Copy, Debug, PartialEq, Eq)]
pub enum AcSymbol {
    Run(u64),
    Value(u64),
}

impl From<super::AcSymbol> for AcSymbol {
    fn from(s: super::AcSymbol) -> Self {
        match s {
            super::AcSymbol::Run(n) => Self::Run(n),
            super::AcSymbol::Value(v) => Self::Value(v),
        }
    }
}
