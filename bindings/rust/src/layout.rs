//! Frame geometry and quality presets.

use crate::ffi;
use crate::refused::Refused;

/// Rows of one slice.
pub const SLICE_HEIGHT: usize = 16;

/// Why no method of a layout is refused: there is none for another size.
const ACCEPTED: &str = "a layout's size is accepted";

/// Plane geometry for one frame size, which is accepted.
#[derive(Clone, Copy, Debug, PartialEq, Eq)]
pub struct Layout {
    width: usize,
    height: usize,
    aligned_height: usize,
    slices: usize,
    strides: [usize; 4],
    max_dc_len: usize,
    max_ac_len: usize,
}

impl Layout {
    /// The geometry of this size. Refused: 9, unless the width is even and 16 to 7,680 and the height 16 to 4,320.
    ///
    /// ```
    /// let l = vmx::Layout::new(1920, 1080)?;
    /// assert_eq!((l.aligned_height(), l.slices(), l.strides()), (1088, 68, [1920, 960, 960, 1920]));
    /// # Ok::<(), vmx::Refused>(())
    /// ```
    pub fn new(width: usize, height: usize) -> Result<Self, Refused> {
        let g = ffi::layout(width, height)?;
        Ok(Layout {
            width,
            height,
            aligned_height: g.aligned_height,
            slices: g.slices,
            strides: [g.luma, g.chroma, g.chroma, g.luma],
            max_dc_len: g.max_dc_len,
            max_ac_len: g.max_ac_len,
        })
    }

    /// Width in pixels.
    pub fn width(&self) -> usize {
        self.width
    }

    /// Height in pixels.
    pub fn height(&self) -> usize {
        self.height
    }

    /// Height rounded up to whole slices: the rows that are coded.
    pub fn aligned_height(&self) -> usize {
        self.aligned_height
    }

    /// Number of slices of sixteen rows.
    pub fn slices(&self) -> usize {
        self.slices
    }

    /// Strides of the planes Y, U, V, A in samples.
    pub fn strides(&self) -> [usize; 4] {
        self.strides
    }

    /// Samples of an image row in a plane: half as many in planes 1 and 2. Planes above 3 have none.
    pub fn plane_width(&self, plane: usize) -> usize {
        match plane {
            0 | 3 => self.width,
            1 | 2 => self.width / 2,
            _ => 0,
        }
    }

    /// Longest DC stream of a slice that a frame may hold, in bytes.
    pub fn max_dc_len(&self) -> usize {
        self.max_dc_len
    }

    /// Longest AC stream of a slice that a frame may hold, in bytes.
    pub fn max_ac_len(&self) -> usize {
        self.max_ac_len
    }

    /// Length that no frame of this size passes, in bytes.
    pub fn max_frame_len(&self) -> usize {
        5 + self.slices * (4 + self.max_dc_len + 4 + self.max_ac_len)
    }

    /// Whether a frame of this height is coded in fields when asked.
    pub fn interlace_capable(&self) -> bool {
        ffi::interlace_capable(self.width, self.height).expect(ACCEPTED)
    }

    /// The image row that is coded in row `r`, or `None` for a padding row. Fields: even image rows are coded in the
    /// upper half, odd ones in the lower half.
    ///
    /// ```
    /// let l = vmx::Layout::new(720, 480)?;
    /// assert_eq!((l.image_row(241, false), l.image_row(241, true)), (Some(241), Some(3)));
    /// # Ok::<(), vmx::Refused>(())
    /// ```
    pub fn image_row(&self, r: usize, interlaced: bool) -> Option<usize> {
        ffi::image_row(self.width, self.height, r, interlaced).expect(ACCEPTED)
    }

    /// Width and height of the 1/8 preview.
    pub fn preview_size(&self, interlaced: bool) -> (usize, usize) {
        ffi::preview_size(self.width, self.height, interlaced).expect(ACCEPTED)
    }
}

/// The quality that is in force for a quality asked, and its preset. Above 99 it is 99; below 36 there is no preset of
/// its own, and it is preset 0, as in libvmx.
///
/// ```
/// assert_eq!(vmx::quality_preset(36), (36, 24));
/// assert_eq!(vmx::quality_preset(35), (35, 0));
/// assert_eq!(vmx::quality_preset(100), (99, 0));
/// ```
pub fn quality_preset(quality: u8) -> (u8, usize) {
    ffi::quality_preset(quality)
}

#[cfg(test)]
mod tests {
    use super::*;

    #[test]
    fn chroma_has_a_stride_of_its_own() {
        let l = Layout::new(18, 17).unwrap();
        assert_eq!(l.strides(), [24, 16, 16, 24]);
        assert_eq!((l.aligned_height(), l.slices()), (32, 2));
        assert_eq!((l.plane_width(0), l.plane_width(1), l.plane_width(4)), (18, 9, 0));
    }

    #[test]
    fn sizes_out_of_range() {
        for (w, h) in [(14, 16), (17, 16), (7682, 16), (16, 15), (16, 4321), (usize::MAX, 16), (0, 0)] {
            assert_eq!(Layout::new(w, h), Err(Refused::Size), "{w} x {h}");
            assert_eq!(ffi::interlace_capable(w, h), Err(Refused::Size), "{w} x {h}");
            assert_eq!(ffi::image_row(w, h, 0, false), Err(Refused::Size), "{w} x {h}");
            assert_eq!(ffi::preview_size(w, h, false), Err(Refused::Size), "{w} x {h}");
        }
        assert!(Layout::new(7680, 4320).is_ok());
    }

    #[test]
    fn padding_rows_have_no_image_row() {
        let l = Layout::new(64, 1080).unwrap();
        assert!(l.interlace_capable());
        assert_eq!((l.image_row(1079, false), l.image_row(1080, false)), (Some(1079), None));
        assert_eq!((l.image_row(540, true), l.image_row(544, true)), (None, Some(1)));
    }
}
