//! Codes, bit writer and bit readers.

pub use crate::bits::probe::AcSymbol;
use crate::bits::{AcCursor, BitAcc, BitReader};

pub fn to_code(v: i32) -> u32 {
    crate::bits::to_code(v)
}

pub fn from_code(code: u64) -> i16 {
    crate::bits::from_code(code)
}

/// A `BitAcc` and its buffer, which has the room that `reserve` gives.
#[derive(Default)]
pub struct Writer {
    acc: BitAcc,
    buf: Vec<u8>,
}

impl Writer {
    pub fn put(&mut self, v: u64, n: u32) {
        self.acc.reserve(&mut self.buf);
        self.acc.put(v, n, &mut self.buf);
    }
    pub fn put_value(&mut self, v: u32) {
        self.acc.reserve(&mut self.buf);
        self.acc.put_value(v, &mut self.buf);
    }
    pub fn put_run(&mut self, n: u32) {
        self.acc.reserve(&mut self.buf);
        self.acc.put_run(n, &mut self.buf);
    }
    pub fn put_run_value(&mut self, run: u32, v: u32) {
        self.acc.reserve(&mut self.buf);
        self.acc.put_run_value(run, v, &mut self.buf);
    }
    /// For timing: the whole room at once, as `encode_plane` reserves it a block at a time.
    pub fn with_room(bytes: usize) -> Self {
        Self { acc: BitAcc::default(), buf: vec![0; bytes] }
    }
    #[inline]
    pub fn put_run_value_unreserved(&mut self, run: u32, v: u32) {
        self.acc.put_run_value(run, v, &mut self.buf);
    }
    pub fn align(&mut self) {
        self.acc.reserve(&mut self.buf);
        self.acc.align(&mut self.buf);
    }
    /// Bits put so far.
    pub fn len_bits(&self) -> usize {
        8 * self.acc.bytes() + self.acc.pending() as usize
    }
    /// The whole bytes put so far.
    pub fn bytes(&self) -> &[u8] {
        &self.buf[..self.acc.bytes()]
    }
}

/// One code tail (zeros, then two bits more) read at a bit position: its number
/// and the position after it, or nothing where it is corrupt.
pub fn code_tail(data: &[u8], pos: usize) -> Option<(u64, usize)> {
    let mut r = BitReader::at(data, pos);
    let v = r.code_tail().ok()?;
    Some((v, r.bit_pos()))
}

pub fn bit(data: &[u8], pos: usize) -> u32 {
    BitReader::at(data, pos).bit()
}

/// One DC code, as `decode_plane` reads it: nothing for a zero step, else the
/// number; and the position after it.
pub fn dc_code(data: &[u8], pos: usize) -> Option<(Option<u64>, usize)> {
    let mut r = BitReader::at(data, pos);
    if r.bit() == 1 {
        r.bit();
        return Some((None, r.bit_pos()));
    }
    let v = r.code_tail().ok()?;
    Some((Some(v), r.bit_pos()))
}

/// One AC symbol read bit by bit.
pub fn ac_symbol(data: &[u8], pos: usize) -> Option<(AcSymbol, usize)> {
    let mut r = BitReader::at(data, pos);
    let run = r.bit() == 1;
    if run && r.bit() == 1 {
        return Some((AcSymbol::Run(1), r.bit_pos()));
    }
    let v = r.code_tail().ok()?;
    Some((if run { AcSymbol::Run(v) } else { AcSymbol::Value(v) }, r.bit_pos()))
}

/// A cursor over AC symbols.
#[derive(Clone, Copy)]
pub struct Cursor<'a>(AcCursor<'a>);

impl<'a> Cursor<'a> {
    pub fn new(data: &'a [u8], pos: usize) -> Self {
        Self(AcCursor::new(BitReader::at(data, pos)))
    }
    pub fn symbol(&mut self) -> Option<AcSymbol> {
        self.0.ac_symbol().ok().map(AcSymbol::from)
    }
    pub fn bit_pos(&self) -> usize {
        self.0.reader().bit_pos()
    }
}
