//! Frame geometry and container.

use crate::Error;

/// The number that document 01 gives to an error.
pub fn number(e: Error) -> u32 {
    match e {
        Error::InvalidDimensions { .. } => 9,
        Error::Truncated => 10,
        Error::InvalidBitstream("unknown codec format byte") => 11,
        Error::InvalidBitstream("DC shift out of range") => 2,
        Error::InvalidBitstream("slice stream larger than allowed") => 13,
        Error::InvalidBitstream("corrupt slice stream" | "corrupt DC stream") => 8,
        Error::SliceCountMismatch { .. } => 12,
        _ => panic!("{e:?} has no number"),
    }
}

#[derive(Clone, Copy, Debug)]
pub struct Layout(crate::layout::Layout);

impl Layout {
    pub fn new(width: usize, height: usize) -> Result<Self, Error> {
        crate::layout::Layout::new(width, height).map(Self)
    }
    pub fn aligned_height(&self) -> usize {
        self.0.aligned_height
    }
    pub fn slices(&self) -> usize {
        self.0.slices
    }
    pub fn strides(&self) -> [usize; 4] {
        self.0.strides
    }
    pub fn interlace_capable(&self) -> bool {
        self.0.interlace_capable()
    }
    pub fn image_row(&self, r: usize, interlaced: bool) -> Option<usize> {
        self.0.image_row(r, interlaced)
    }
    pub fn max_dc_len(&self) -> usize {
        self.0.max_dc_len()
    }
    pub fn max_ac_len(&self) -> usize {
        self.0.max_ac_len()
    }
    pub fn preview_size(&self, interlaced: bool) -> (usize, usize) {
        self.0.preview_size(interlaced)
    }
}

/// A frame's header and the places of its streams, as offset and length.
#[derive(Clone, Debug, PartialEq, Eq)]
pub struct Container {
    pub interlaced: bool,
    pub quality: i32,
    pub dc_shift: u32,
    pub header_len: usize,
    pub dc: Vec<(usize, usize)>,
    pub ac: Vec<(usize, usize)>,
}

pub fn parse(layout: &Layout, data: &[u8]) -> Result<Container, Error> {
    let c = crate::layout::parse(&layout.0, data)?;
    let place = |s: &&[u8]| (s.as_ptr() as usize - data.as_ptr() as usize, s.len());
    Ok(Container {
        interlaced: c.interlaced,
        quality: c.quality,
        dc_shift: c.dc_shift,
        header_len: c.header_len,
        dc: c.dc.iter().map(place).collect(),
        ac: c.ac.iter().map(place).collect(),
    })
}

/// The published reading alone: how many streams it found. For timing.
pub fn stream_count(layout: &Layout, data: &[u8]) -> Result<usize, Error> {
    let c = std::hint::black_box(crate::layout::parse(&layout.0, data)?);
    Ok(c.dc.len() + c.ac.len())
}

pub fn write(
    layout: &Layout,
    interlaced: bool,
    quality: i32,
    dc_shift: u32,
    dc: &[Vec<u8>],
    ac: &[Vec<u8>],
) -> Vec<u8> {
    let mut out = Vec::new();
    write_into(&mut out, layout, interlaced, quality, dc_shift, dc, ac);
    out
}

/// The same, after what the vector has.
pub fn write_into(
    out: &mut Vec<u8>,
    layout: &Layout,
    interlaced: bool,
    quality: i32,
    dc_shift: u32,
    dc: &[Vec<u8>],
    ac: &[Vec<u8>],
) {
    crate::layout::write(out, &layout.0, interlaced, quality, dc_shift, dc, ac);
}
