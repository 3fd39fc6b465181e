//! Frames into the picture that is shown.

use crate::frame::{Frame, FrameInfo};
use crate::layout::Layout;
use crate::picture::Picture;
use crate::plane::{decode_slice, PlaneMut};
use crate::refused::{Refused, Verdict};
use crate::sample::Sample;
use crate::shown::{show, shown_time};
use crate::streams::StreamReader;
use crate::threads::{all_cores, for_each};

/// Reads frames of one size and keeps the picture that is shown. A slice that is refused shows the rows, and the time,
/// that were shown before: never blocks of two pictures beside each other within one slice.
///
/// ```
/// use vmx::{Decoder, Encoder, Picture, Refused};
/// let encoder = Encoder::new(64, 32)?;
/// let mut picture = Picture::<u8>::new(encoder.layout(), false);
/// let mut decoder = Decoder::<u8>::new(64, 32, false)?;
/// decoder.decode(&encoder.encode(&picture, false)?, 100)?;
///
/// picture.plane_mut(0).fill(200);
/// let mut frame = encoder.encode(&picture, false)?;
/// frame[7..14].fill(0); // a bad code in the DC stream of slice 0
/// assert_eq!(decoder.decode(&frame, 200)?, [Err(Refused::Code), Ok(())]);
/// assert_eq!((decoder.shown().row(0, 15)[0], decoder.shown().row(0, 16)[0]), (0, 200));
/// assert_eq!(decoder.times(), [100, 200]);
/// # Ok::<(), Refused>(())
/// ```
#[derive(Clone, Debug)]
pub struct Decoder<S> {
    layout: Layout,
    threads: usize,
    new: Picture<S>,
    shown: Picture<S>,
    times: Vec<u64>,
    interlaced: bool,
}

impl<S: Sample> Decoder<S> {
    /// A decoder that shows a picture black without colour, of time 0. Frames say neither depth nor whether they have
    /// an alpha plane: that is the caller's knowledge. Refused: 9.
    pub fn new(width: usize, height: usize, alpha: bool) -> Result<Self, Refused> {
        let layout = Layout::new(width, height)?;
        let picture = Picture::new(&layout, alpha);
        let times = vec![0; layout.slices()];
        Ok(Decoder { layout, threads: all_cores(), new: picture.clone(), shown: picture, times, interlaced: false })
    }

    /// The size of its frames.
    pub fn layout(&self) -> &Layout {
        &self.layout
    }

    /// Sets the number of threads. What is shown does not depend on it.
    pub fn set_threads(&mut self, threads: usize) {
        self.threads = threads.max(1);
    }

    /// Reads the header of a frame. Refused: as [`Frame::parse`].
    pub fn info(&self, frame: &[u8]) -> Result<FrameInfo, Refused> {
        Ok(Frame::parse(&self.layout, frame)?.info())
    }

    /// Length of the frame's beginning that a preview needs. Refused: as [`Frame::parse`].
    pub fn preview_len(&self, frame: &[u8]) -> Result<usize, Refused> {
        Ok(Frame::parse(&self.layout, frame)?.preview_len())
    }

    /// Reads a frame of the given time and shows it: a verdict for each slice. A frame that is refused whole (2, 10 to
    /// 13, or 14 where it has no AC streams) changes nothing.
    pub fn decode(&mut self, frame: &[u8], time: u64) -> Result<Vec<Verdict>, Refused> {
        let frame = Frame::parse(&self.layout, frame)?;
        frame.ac(0)?;
        let verdicts =
            for_each(self.new.slices_mut(), self.threads, || (), |_, s, planes| decode_one_slice(&frame, s, planes));
        for (s, &verdict) in verdicts.iter().enumerate() {
            for p in 0..self.new.plane_count() {
                show(self.new.plane_mut(p), self.shown.plane(p), self.layout.strides()[p], s, verdict)
                    .expect("both pictures have the layout's slices");
            }
            self.times[s] = shown_time(time, self.times[s], verdict);
        }
        std::mem::swap(&mut self.new, &mut self.shown);
        self.interlaced = frame.info().interlaced;
        Ok(verdicts)
    }

    /// The picture that is shown.
    pub fn shown(&self) -> &Picture<S> {
        &self.shown
    }

    /// The time that is shown of each slice.
    pub fn times(&self) -> &[u64] {
        &self.times
    }

    /// Whether the last frame that was read is in fields.
    pub fn interlaced(&self) -> bool {
        self.interlaced
    }
}

fn decode_one_slice<S: Sample>(frame: &Frame, slice: usize, mut planes: Vec<PlaneMut<S>>) -> Verdict {
    let (mut dc, mut ac) = (StreamReader::new(frame.dc(slice)?), StreamReader::new(frame.ac(slice)?));
    let info = frame.info();
    decode_slice(&mut planes, info.preset, info.dc_shift, &mut dc, &mut ac)
}
