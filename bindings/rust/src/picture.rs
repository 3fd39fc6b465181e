//! Planes of a whole picture, as they are coded.

use crate::layout::{Layout, SLICE_HEIGHT};
use crate::plane::{Plane, PlaneMut};
use crate::sample::Sample;

/// The planes Y, U, V, and A if there is one: `aligned_height` rows of `strides()[p]` samples each. Rows are in coded
/// order; [`Layout::image_row`] says which image row each of them is.
#[derive(Clone, Debug, PartialEq, Eq)]
pub struct Picture<S> {
    layout: Layout,
    planes: Vec<Vec<S>>,
}

impl<S: Sample> Picture<S> {
    /// A picture of this size, black without colour: three planes, or four with alpha.
    pub fn new(layout: &Layout, alpha: bool) -> Self {
        let plane = |p: usize| vec![S::FILL[p]; layout.strides()[p] * layout.aligned_height()];
        Picture { layout: *layout, planes: (0..if alpha { 4 } else { 3 }).map(plane).collect() }
    }

    /// Its size.
    pub fn layout(&self) -> &Layout {
        &self.layout
    }

    /// 3, or 4 with alpha.
    pub fn plane_count(&self) -> usize {
        self.planes.len()
    }

    /// All samples of plane `p`, 0 to 2 or 3. Panics if there is no such plane.
    pub fn plane(&self, p: usize) -> &[S] {
        &self.planes[p]
    }

    /// All samples of plane `p`. Panics if there is no such plane.
    pub fn plane_mut(&mut self, p: usize) -> &mut [S] {
        &mut self.planes[p]
    }

    /// The samples of coded row `r` of plane `p` that are in the image. Panics if there is no such row.
    pub fn row(&self, p: usize, r: usize) -> &[S] {
        let start = r * self.layout.strides()[p];
        &self.planes[p][start..start + self.layout.plane_width(p)]
    }

    /// The samples of coded row `r` of plane `p` that are in the image. Panics if there is no such row.
    pub fn row_mut(&mut self, p: usize, r: usize) -> &mut [S] {
        let start = r * self.layout.strides()[p];
        &mut self.planes[p][start..start + self.layout.plane_width(p)]
    }

    /// Fills what is not in the image: each row past its width with its last sample, padding rows with the last
    /// image row above them. So the padding costs few bits.
    pub fn pad(&mut self, interlaced: bool) {
        for p in 0..self.plane_count() {
            let (stride, width) = (self.layout.strides()[p], self.layout.plane_width(p));
            let mut last = 0;
            for r in 0..self.layout.aligned_height() {
                if self.layout.image_row(r, interlaced).is_some() {
                    let row = &mut self.planes[p][r * stride..(r + 1) * stride];
                    let edge = row[width - 1];
                    row[width..].fill(edge);
                    last = r;
                } else {
                    self.planes[p].copy_within(last * stride..(last + 1) * stride, r * stride);
                }
            }
        }
    }

    /// The planes of slice `s`. Panics if there is no such slice.
    pub fn slice<'a>(&'a self, s: usize) -> Vec<Plane<'a, S>> {
        let rows = |p: usize| self.layout.strides()[p] * SLICE_HEIGHT;
        let part = |(p, data): (usize, &'a Vec<S>)| Plane {
            rows: &data[s * rows(p)..(s + 1) * rows(p)],
            stride: self.layout.strides()[p],
        };
        self.planes.iter().enumerate().map(part).collect()
    }

    /// The planes of each slice, so that slices can be read by several threads.
    pub fn slices_mut(&mut self) -> Vec<Vec<PlaneMut<'_, S>>> {
        let strides = self.layout.strides();
        let mut slices: Vec<Vec<_>> = (0..self.layout.slices()).map(|_| Vec::with_capacity(4)).collect();
        for (p, data) in self.planes.iter_mut().enumerate() {
            for (slice, rows) in slices.iter_mut().zip(data.chunks_mut(strides[p] * SLICE_HEIGHT)) {
                slice.push(PlaneMut { rows, stride: strides[p] });
            }
        }
        slices
    }
}

#[cfg(test)]
mod tests {
    use super::*;

    #[test]
    fn padding_repeats_the_edge() {
        let layout = Layout::new(18, 17).unwrap();
        let mut picture = Picture::<u8>::new(&layout, false);
        for p in 0..3 {
            for r in 0..17 {
                picture.row_mut(p, r).fill(100 + r as u8);
            }
        }
        picture.pad(false);
        for p in 0..3 {
            let stride = layout.strides()[p];
            for (i, &v) in picture.plane(p).iter().enumerate() {
                assert_eq!(v, 100 + (i / stride).min(16) as u8, "plane {p}, sample {i}");
            }
        }
    }

    #[test]
    fn fields_are_padded_by_their_own_last_row() {
        let layout = Layout::new(16, 1080).unwrap();
        let mut picture = Picture::<u8>::new(&layout, false);
        for r in 0..layout.aligned_height() {
            if let Some(row) = layout.image_row(r, true) {
                picture.row_mut(0, r).fill((row % 2) as u8);
            }
        }
        picture.pad(true);
        let (top, bottom) = picture.plane(0).split_at(544 * 16);
        assert!(top.iter().all(|&v| v == 0) && bottom.iter().all(|&v| v == 1));
    }

    #[test]
    fn slices_are_parts_of_the_planes() {
        let layout = Layout::new(18, 33).unwrap();
        let mut picture = Picture::<u16>::new(&layout, true);
        for (s, planes) in picture.slices_mut().into_iter().enumerate() {
            assert_eq!(planes.len(), 4);
            for plane in planes {
                assert_eq!(plane.rows.len(), 16 * plane.stride);
                plane.rows.fill(s as u16);
            }
        }
        for s in 0..3 {
            for plane in picture.slice(s) {
                assert!(plane.rows.iter().all(|&v| v == s as u16));
            }
        }
    }
}
