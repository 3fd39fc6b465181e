//! The reference answers, each on the SSE2 and on the portable path.

pub mod bits;
pub mod dct;
pub mod lanes;
pub mod layout;
pub mod slice;
pub mod tables;

/// Which implementation of the lane operations runs below a call.
#[derive(Clone, Copy, Debug, PartialEq, Eq)]
pub enum Path {
    Sse2,
    Portable,
}

pub const PATHS: [Path; 2] = [Path::Sse2, Path::Portable];

/// Sample depth of a plane.
#[derive(Clone, Copy, Debug, PartialEq, Eq)]
pub enum Depth {
    Eight,
    Ten,
}

/// Runs an expression with a type name bound to the path's lane operations.
macro_rules! on {
    ($path:expr, $s:ident => $e:expr) => {
        match $path {
            $crate::api::Path::Sse2 => {
                type $s = $crate::simd::Native;
                $e
            }
            $crate::api::Path::Portable => {
                type $s = $crate::lanes::Scalar;
                $e
            }
        }
    };
}
pub(crate) use on;
