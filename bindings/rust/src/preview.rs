//! The 1/8 preview of whole frames, from their DC streams alone.

use crate::frame::Frame;
use crate::layout::Layout;
use crate::plane::decode_plane_preview;
use crate::refused::{Refused, Verdict};
use crate::sample::Sample;
use crate::streams::StreamReader;

/// Reads previews and keeps the one that is shown; a refused slice shows what was there before.
///
/// ```
/// use vmx::{Encoder, Picture, Preview};
/// let encoder = Encoder::new(64, 32)?;
/// let mut picture = Picture::<u8>::new(encoder.layout(), false);
/// picture.plane_mut(0).fill(99);
/// let mut preview = Preview::new(64, 32, false)?;
/// preview.decode(&encoder.encode(&picture, false)?)?;
/// assert_eq!((preview.size(), preview.row(0, 3)), ((8, 4), &[99; 8][..]));
/// # Ok::<(), vmx::Refused>(())
/// ```
#[derive(Clone, Debug)]
pub struct Preview {
    layout: Layout,
    /// Two rows a slice.
    planes: Vec<Vec<u8>>,
    interlaced: bool,
}

impl Preview {
    /// Refused: 9.
    pub fn new(width: usize, height: usize, alpha: bool) -> Result<Self, Refused> {
        let layout = Layout::new(width, height)?;
        let (columns, _) = layout.preview_size(false);
        // A row may be a column wider than a plane has blocks: that column keeps the fill.
        let plane =
            |p: usize| vec![<u8 as Sample>::FILL[p]; (layout.strides()[p] / 8).max(columns) * 2 * layout.slices()];
        Ok(Preview { layout, planes: (0..if alpha { 4 } else { 3 }).map(plane).collect(), interlaced: false })
    }

    /// Bytes from one row to the next.
    fn pitch(&self, p: usize) -> usize {
        self.planes[p].len() / (2 * self.layout.slices())
    }

    /// Reads the preview of a frame, which needs no AC streams: a verdict for each slice. A frame that is refused whole
    /// changes nothing.
    pub fn decode(&mut self, frame: &[u8]) -> Result<Vec<Verdict>, Refused> {
        let frame = Frame::parse(&self.layout, frame)?;
        self.interlaced = frame.info().interlaced;
        Ok((0..self.layout.slices()).map(|s| self.decode_one_slice(&frame, s)).collect())
    }

    /// All planes of the slice are read before one of them is stored.
    fn decode_one_slice(&mut self, frame: &Frame, slice: usize) -> Verdict {
        let mut dc = StreamReader::new(frame.dc(slice)?);
        let mut read = Vec::with_capacity(4);
        for (p, &stride) in self.layout.strides().iter().enumerate().take(self.planes.len()) {
            let (mut upper, mut lower) = (vec![0; stride / 8], vec![0; stride / 8]);
            decode_plane_preview(&mut upper, &mut lower, stride, p, frame.info().dc_shift, &mut dc)?;
            read.push([upper, lower]);
        }
        for (p, rows) in read.iter().enumerate() {
            for (k, row) in rows.iter().enumerate() {
                let start = (2 * slice + k) * self.pitch(p);
                self.planes[p][start..start + row.len()].copy_from_slice(row);
            }
        }
        Ok(())
    }

    /// Width and height; planes 1 and 2 are half as wide.
    pub fn size(&self) -> (usize, usize) {
        self.layout.preview_size(self.interlaced)
    }

    /// Row `y` of plane `p`. Panics if there is no such row.
    pub fn row(&self, p: usize, y: usize) -> &[u8] {
        let (width, height) = self.size();
        assert!(y < height, "a preview of {height} rows has no row {y}");
        // Fields: even rows lie in the upper half, odd ones in the lower half.
        let r = if self.interlaced { y / 2 + y % 2 * (self.layout.aligned_height() / 16) } else { y };
        let start = r * self.pitch(p);
        &self.planes[p][start..start + if p == 1 || p == 2 { width / 2 } else { width }]
    }
}
