//! VMX planes, slices and frames: safe calls over the static library libvmx.a, whose every function is proved to do
//! what the scope document ("document 01") says or to refuse with the number that the document fixes.
//!
//! Three layers, each usable alone:
//!
//! - planes and slices: [`encode_plane`], [`decode_plane`], [`encode_slice`], [`decode_slice`],
//!   [`decode_plane_preview`], [`block_report`], [`plane_size`], [`slice_size`], on lent buffers;
//! - frames: [`Layout`], [`Frame`], [`FrameBuilder`], [`write()`], [`quality_preset`], [`shown_rows`], [`shown_time`];
//! - whole pictures on several threads: [`Picture`], [`Encoder`], [`Decoder`], [`Preview`].
//!
//! The first two are the library's own calls. The third is ordinary Rust over them, and is not proved.
//!
//! A refusal is a [`Refused`]: the first of document 01's questions that was answered no. A refused call changes no
//! sample and no byte and leaves every position where it was.
//!
//! ```
//! use vmx::{decode_slice, encode_slice, slice_size, Plane, PlaneMut, StreamReader, StreamWriter};
//! let luma: Vec<u8> = (0..16 * 64).map(|i| (i % 64 * 4) as u8).collect();
//! let size = slice_size(&[64])?;
//! let (mut dc, mut ac) = (vec![0; size.dc], vec![0; size.ac]);
//! let (mut dc, mut ac) = (StreamWriter::new(&mut dc), StreamWriter::new(&mut ac));
//! encode_slice(&[Plane { rows: &luma, stride: 64 }], 0, 0, &mut dc, &mut ac)?;
//!
//! let mut rows = vec![0u8; luma.len()];
//! let (mut d, mut a) = (StreamReader::new(dc.written()), StreamReader::new(ac.written()));
//! decode_slice(&mut [PlaneMut { rows: &mut rows, stride: 64 }], 0, 0, &mut d, &mut a)?;
//! assert!(rows.iter().zip(&luma).all(|(a, b)| a.abs_diff(*b) <= 2));
//! assert_eq!((d.pos(), a.pos()), (dc.pos(), ac.pos()));
//! # Ok::<(), vmx::Refused>(())
//! ```

mod decoder;
mod encoder;
mod ffi;
mod frame;
mod layout;
mod picture;
mod plane;
mod preview;
mod refused;
mod sample;
mod shown;
mod streams;
mod threads;

pub use decoder::Decoder;
pub use encoder::Encoder;
pub use frame::{write, Frame, FrameBuilder, FrameInfo};
pub use layout::{quality_preset, Layout, SLICE_HEIGHT};
pub use picture::Picture;
pub use plane::{
    block_report, decode_plane, decode_plane_preview, decode_slice, encode_plane, encode_slice, plane_size, slice_size,
    Plane, PlaneMut, Size,
};
pub use preview::Preview;
pub use refused::{Refused, Verdict};
pub use sample::{Depth, Sample};
pub use shown::{show, shown_rows, shown_time};
pub use streams::{StreamReader, StreamWriter};
pub use threads::all_cores;

/// The examples of SWITCHING.md are run as tests.
#[cfg(doctest)]
#[doc = include_str!("../SWITCHING.md")]
pub struct Switching;
