//! The types of the unpublished `frame.rs`, so that the published files
//! compile. No reference answer passes through here.

use crate::Error;

#[derive(Clone, Copy, PartialEq, Eq)]
#[allow(dead_code, reason = "some are only matched on by the published files")]
pub enum PixelFormat {
    Uyvy,
    Yuy2,
    Uyva,
    Nv12,
    I420,
    Yuv422p,
    Yuva422p,
    P216,
    Pa16,
}

impl PixelFormat {
    pub fn has_alpha(self) -> bool {
        matches!(self, Self::Uyva | Self::Yuva422p | Self::Pa16)
    }
    pub fn is_10bit(self) -> bool {
        matches!(self, Self::P216 | Self::Pa16)
    }
    pub fn can_decode(self) -> bool {
        !matches!(self, Self::Nv12 | Self::I420)
    }
}

pub struct Plane {
    pub data: Vec<u8>,
    pub stride: usize,
}

pub struct Frame {
    pub width: usize,
    pub height: usize,
    pub format: PixelFormat,
    pub interlaced: bool,
    pub planes: Vec<Plane>,
}

impl Frame {
    pub fn new(_width: usize, _height: usize, _format: PixelFormat) -> Self {
        unimplemented!("pixel conversion is not part of the reference")
    }
    pub fn validate(&self) -> Result<(), Error> {
        unimplemented!("pixel conversion is not part of the reference")
    }
    pub fn row(&self, _plane: usize, _row: usize, _len: usize) -> &[u8] {
        unimplemented!("pixel conversion is not part of the reference")
    }
}
