//! Whole pictures into frames.

use crate::frame;
use crate::layout::{quality_preset, Layout};
use crate::picture::Picture;
use crate::plane::{encode_slice, slice_size, Plane};
use crate::refused::Refused;
use crate::sample::Sample;
use crate::streams::StreamWriter;
use crate::threads::{all_cores, for_each};

/// Compresses pictures of one size into VMX frames, slice by slice on several threads. It has no rate control: the
/// quality is what its caller sets.
///
/// ```
/// use vmx::{Decoder, Encoder, Picture};
/// let encoder = Encoder::new(64, 32)?;
/// let mut picture = Picture::<u8>::new(encoder.layout(), false);
/// picture.plane_mut(0).fill(77);
/// let frame = encoder.encode(&picture, false)?;
///
/// let mut decoder = Decoder::<u8>::new(64, 32, false)?;
/// let verdicts = decoder.decode(&frame, 1)?;
/// assert_eq!(verdicts, [Ok(()), Ok(())]);
/// assert_eq!(decoder.shown().plane(0), picture.plane(0));
/// # Ok::<(), vmx::Refused>(())
/// ```
#[derive(Clone, Debug)]
pub struct Encoder {
    layout: Layout,
    quality: u8,
    preset: usize,
    dc_shift: u32,
    threads: usize,
}

impl Encoder {
    /// Quality 80, DC shift 0, all cores. Refused: 9.
    pub fn new(width: usize, height: usize) -> Result<Self, Refused> {
        let layout = Layout::new(width, height)?;
        let (quality, preset) = quality_preset(80);
        Ok(Encoder { layout, quality, preset, dc_shift: 0, threads: all_cores() })
    }

    /// The size of its pictures.
    pub fn layout(&self) -> &Layout {
        &self.layout
    }

    /// Sets the quality of the next frames: 36 (smallest frames) to 99 (finest). See [`quality_preset`].
    pub fn set_quality(&mut self, quality: u8) {
        (self.quality, self.preset) = quality_preset(quality);
    }

    /// The quality that is in force.
    pub fn quality(&self) -> u8 {
        self.quality
    }

    /// Sets the DC precision of the next frames: 0 is full, 15 the coarsest. Larger ones are refused by `encode`.
    pub fn set_dc_shift(&mut self, dc_shift: u32) {
        self.dc_shift = dc_shift;
    }

    /// Sets the number of threads. The frames do not depend on it.
    pub fn set_threads(&mut self, threads: usize) {
        self.threads = threads.max(1);
    }

    /// The frame of a picture. `interlaced` says that its rows are in fields (see [`Layout::image_row`]).
    /// Refused: 2; 9 for a picture of another size; 13 where a slice is too long for a frame, which a lower quality
    /// helps.
    pub fn encode<S: Sample>(&self, picture: &Picture<S>, interlaced: bool) -> Result<Vec<u8>, Refused> {
        if *picture.layout() != self.layout {
            return Err(Refused::Size);
        }
        let size = slice_size(&self.layout.strides()[..picture.plane_count()])?;
        let room = || (vec![0; size.dc], vec![0; size.ac]);
        let slices: Vec<_> = (0..self.layout.slices()).map(|s| picture.slice(s)).collect();
        let coded = for_each(slices, self.threads, room, |(dc, ac), _, planes| self.encode_one_slice(&planes, dc, ac));
        let (dc, ac): (Vec<_>, Vec<_>) = coded.into_iter().collect::<Result<Vec<_>, _>>()?.into_iter().unzip();
        let mut out = Vec::new();
        frame::write(&mut out, &self.layout, interlaced, self.quality, self.dc_shift, &dc, &ac)?;
        Ok(out)
    }

    /// The DC and the AC stream of a slice, coded in the two lent buffers.
    fn encode_one_slice<S: Sample>(
        &self,
        planes: &[Plane<S>],
        dc: &mut [u8],
        ac: &mut [u8],
    ) -> Result<(Vec<u8>, Vec<u8>), Refused> {
        let (mut dc, mut ac) = (StreamWriter::new(dc), StreamWriter::new(ac));
        encode_slice(planes, self.preset, self.dc_shift, &mut dc, &mut ac)?;
        Ok((dc.written().to_vec(), ac.written().to_vec()))
    }
}
