//! The two sample types.

use crate::ffi;

/// Sample depth of a plane.
#[derive(Clone, Copy, Debug, PartialEq, Eq, Hash)]
pub enum Depth {
    /// `u8` samples.
    Eight,
    /// `u16` samples whose upper ten bits count.
    Ten,
}

impl Depth {
    /// 8 or 10.
    pub fn bits(self) -> u32 {
        match self {
            Depth::Eight => 8,
            Depth::Ten => 10,
        }
    }
}

pub(crate) mod sealed {
    use super::ffi::{DecodePlane, DecodeSlice, EncodePlane, EncodeSlice};

    /// The library's calls for one depth.
    pub trait Calls: Sized {
        const ENCODE_PLANE: EncodePlane<Self>;
        const DECODE_PLANE: DecodePlane<Self>;
        const ENCODE_SLICE: EncodeSlice<Self>;
        const DECODE_SLICE: DecodeSlice<Self>;
    }
}

/// A sample type the planes can hold: `u8` (8 bit) or `u16` (10 bit, in the upper bits). No other type can be one:
///
/// ```compile_fail,E0277
/// vmx::encode_plane(&[0u32; 128], 8, 0, 0, 0, todo!(), todo!());
/// ```
pub trait Sample: sealed::Calls + Copy + Default + Eq + std::fmt::Debug + Send + Sync + 'static {
    /// The depth that this type stands for.
    const DEPTH: Depth;

    /// What a new picture holds in planes 0 to 3, as in libvmx: black without colour, alpha opaque.
    const FILL: [Self; 4];

    /// The sample as the codec sees it, 0 to 255 or 0 to 1,023.
    ///
    /// ```
    /// use vmx::Sample;
    /// assert_eq!(200u8.lane(), 200);
    /// assert_eq!((1023u16 << 6).lane(), 1023);
    /// ```
    fn lane(self) -> u16;

    /// The sample of such a number; larger ones are taken as the largest.
    fn from_lane(lane: u16) -> Self;
}

impl sealed::Calls for u8 {
    const ENCODE_PLANE: ffi::EncodePlane<u8> = ffi::vmx_encode_plane8;
    const DECODE_PLANE: ffi::DecodePlane<u8> = ffi::vmx_decode_plane8;
    const ENCODE_SLICE: ffi::EncodeSlice<u8> = ffi::vmx_encode_slice8;
    const DECODE_SLICE: ffi::DecodeSlice<u8> = ffi::vmx_decode_slice8;
}

impl Sample for u8 {
    const DEPTH: Depth = Depth::Eight;
    const FILL: [u8; 4] = [0, 128, 128, 255];

    fn lane(self) -> u16 {
        self.into()
    }

    fn from_lane(lane: u16) -> u8 {
        lane.min(255) as u8
    }
}

impl sealed::Calls for u16 {
    const ENCODE_PLANE: ffi::EncodePlane<u16> = ffi::vmx_encode_plane10;
    const DECODE_PLANE: ffi::DecodePlane<u16> = ffi::vmx_decode_plane10;
    const ENCODE_SLICE: ffi::EncodeSlice<u16> = ffi::vmx_encode_slice10;
    const DECODE_SLICE: ffi::DecodeSlice<u16> = ffi::vmx_decode_slice10;
}

impl Sample for u16 {
    const DEPTH: Depth = Depth::Ten;
    const FILL: [u16; 4] = [0, 0x8080, 0x8080, 0xFFFF];

    fn lane(self) -> u16 {
        self >> 6
    }

    fn from_lane(lane: u16) -> u16 {
        lane.min(1023) << 6
    }
}
