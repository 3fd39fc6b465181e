//! Streams with a position in whole bytes.

/// A lent buffer that streams are written into, one after the other.
///
/// A call that is accepted moves the position to the byte after what it wrote; the bytes from there on stay as they
/// were. A refused call changes nothing.
#[derive(Debug)]
pub struct StreamWriter<'a> {
    pub(crate) bytes: &'a mut [u8],
    start: usize,
    pub(crate) pos: usize,
}

impl<'a> StreamWriter<'a> {
    /// Writes from the buffer's first byte on.
    pub fn new(bytes: &'a mut [u8]) -> Self {
        Self::at(bytes, 0)
    }

    /// Writes from byte `pos` on. A position past the buffer's end is allowed here; calls will refuse it.
    pub fn at(bytes: &'a mut [u8], pos: usize) -> Self {
        StreamWriter { bytes, start: pos, pos }
    }

    /// Where the next byte goes.
    pub fn pos(&self) -> usize {
        self.pos
    }

    /// What was written since the start.
    pub fn written(&self) -> &[u8] {
        self.bytes.get(self.start..self.pos).unwrap_or(&[])
    }

    pub(crate) fn lend(&mut self) -> crate::ffi::Out<'_> {
        (self.bytes, &mut self.pos)
    }
}

/// A lent stream that is read from a position on. Past its end every bit is one.
#[derive(Clone, Debug)]
pub struct StreamReader<'a> {
    bytes: &'a [u8],
    pos: usize,
}

impl<'a> StreamReader<'a> {
    /// Reads from the first byte on.
    pub fn new(bytes: &'a [u8]) -> Self {
        Self::at(bytes, 0)
    }

    /// Reads from byte `pos` on, which may lie past the end.
    pub fn at(bytes: &'a [u8], pos: usize) -> Self {
        StreamReader { bytes, pos }
    }

    /// Where the next plane is read.
    pub fn pos(&self) -> usize {
        self.pos
    }

    pub(crate) fn lend(&mut self) -> crate::ffi::In<'_> {
        (self.bytes, &mut self.pos)
    }
}
