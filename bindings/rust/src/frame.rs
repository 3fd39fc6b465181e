//! A compressed frame: header, then all DC streams, then all AC streams.

use crate::ffi;
use crate::layout::{quality_preset, Layout};
use crate::refused::{Refused, Verdict};
use std::ops::Range;

/// What a frame's header says.
#[derive(Clone, Copy, Debug, PartialEq, Eq)]
pub struct FrameInfo {
    /// The quality as stored; `preset` is what it stands for.
    pub quality: u8,
    /// The quantiser preset, 0 (finest) to 24.
    pub preset: usize,
    /// DC precision reduction, 0 to 15.
    pub dc_shift: u32,
    /// Coded in fields.
    pub interlaced: bool,
    /// `false` for a frame that holds DC streams only.
    pub has_ac: bool,
    /// Bytes in front of the first stream, 3 or 5.
    pub header_len: usize,
}

/// A frame whose bytes were found whole: the streams of its slices are parts of them.
#[derive(Clone, Debug)]
pub struct Frame<'a> {
    layout: Layout,
    bytes: &'a [u8],
    info: FrameInfo,
    /// Offset and length of each stream: those of all DC streams, then those of all AC streams.
    views: Vec<u32>,
}

impl<'a> Frame<'a> {
    /// Puts document 01's questions about a frame of this size. Bytes after the last stream are ignored.
    /// Refused: 2, 10 to 13.
    ///
    /// ```
    /// use vmx::{Frame, Layout, Refused};
    /// let layout = Layout::new(16, 16)?;
    /// let bytes = [1, 90, 1, 2, 0, 0, 0, 0xAB, 0xCD, 1, 0, 0, 0, 0xEF];
    /// let frame = Frame::parse(&layout, &bytes)?;
    /// assert_eq!((frame.info().quality, frame.dc(0)?, frame.ac(0)?), (90, &bytes[7..9], &bytes[13..]));
    /// assert_eq!(frame.ac(1), Err(Refused::Turn));
    /// assert_eq!(Frame::parse(&layout, &bytes[..13]).unwrap_err(), Refused::Bytes);
    /// # Ok::<(), Refused>(())
    /// ```
    pub fn parse(layout: &Layout, bytes: &'a [u8]) -> Result<Self, Refused> {
        let mut views = vec![0; 4 * layout.slices()];
        let h = ffi::streams(layout.width(), layout.height(), bytes, &mut views)?;
        let quality = h.quality as u8;
        let info = FrameInfo {
            quality,
            preset: quality_preset(quality).1,
            dc_shift: h.dc_shift,
            interlaced: h.interlaced != 0,
            has_ac: h.ac != 0,
            header_len: h.header_len,
        };
        Ok(Frame { layout: *layout, bytes, info, views })
    }

    /// What the header says.
    pub fn info(&self) -> FrameInfo {
        self.info
    }

    /// The size it was read for.
    pub fn layout(&self) -> &Layout {
        &self.layout
    }

    /// The DC stream of a slice. Refused: 14.
    pub fn dc(&self, slice: usize) -> Result<&'a [u8], Refused> {
        self.stream(false, slice)
    }

    /// The AC stream of a slice. Refused: 14, also where the frame has no AC streams.
    pub fn ac(&self, slice: usize) -> Result<&'a [u8], Refused> {
        self.stream(true, slice)
    }

    /// Length of the frame's beginning that a preview needs: header and DC streams.
    pub fn preview_len(&self) -> usize {
        self.place(self.layout.slices() - 1).end
    }

    fn stream(&self, ac: bool, slice: usize) -> Result<&'a [u8], Refused> {
        let slices = self.layout.slices();
        if slice >= slices || ac && !self.info.has_ac {
            return Err(Refused::Turn);
        }
        Ok(&self.bytes[self.place(if ac { slices + slice } else { slice })])
    }

    fn place(&self, view: usize) -> Range<usize> {
        let (offset, len) = (self.views[2 * view] as usize, self.views[2 * view + 1] as usize);
        offset..offset + len
    }
}

/// Builds a frame in a lent buffer: the header, then the DC streams of all slices in order, then the AC streams of all
/// slices or of none.
///
/// ```
/// use vmx::{FrameBuilder, Layout, Refused};
/// let layout = Layout::new(16, 32)?;
/// let mut out = [0; 64];
/// let mut builder = FrameBuilder::new(&layout, false, 90, 0, &mut out)?;
/// builder.put_dc(0, &[0xF0])?;
/// assert_eq!(builder.put_ac(0, &[0x80]), Err(Refused::Turn)); // slice 1's DC stream has its turn
/// builder.put_dc(1, &[0xF0])?;
/// assert_eq!(builder.finish(), Some(&[1, 90, 2, 1, 0, 0, 0, 0xF0, 1, 0, 0, 0, 0xF0][..]));
/// # Ok::<(), Refused>(())
/// ```
#[derive(Debug)]
pub struct FrameBuilder<'a> {
    out: &'a mut [u8],
    state: ffi::Build,
}

impl<'a> FrameBuilder<'a> {
    /// Writes the header. Refused: 2, 6.
    pub fn new(
        layout: &Layout,
        interlaced: bool,
        quality: u8,
        dc_shift: u32,
        out: &'a mut [u8],
    ) -> Result<Self, Refused> {
        let state = ffi::frame_start((layout.width(), layout.height()), interlaced, quality, dc_shift, out, 0)?;
        Ok(FrameBuilder { out, state })
    }

    /// Puts the DC stream of a slice. Refused: 6, 13, 14.
    pub fn put_dc(&mut self, slice: usize, stream: &[u8]) -> Verdict {
        ffi::frame_put(&mut self.state, false, slice, stream, self.out)
    }

    /// Puts the AC stream of a slice. Refused: 6, 13, 14.
    pub fn put_ac(&mut self, slice: usize, stream: &[u8]) -> Verdict {
        ffi::frame_put(&mut self.state, true, slice, stream, self.out)
    }

    /// Whether all DC streams are there, and the AC streams of all slices or of none.
    pub fn is_complete(&self) -> bool {
        ffi::frame_complete(&self.state) == Ok(true)
    }

    /// The frame, if it is complete.
    pub fn finish(self) -> Option<&'a [u8]> {
        let complete = self.is_complete();
        let FrameBuilder { out, state } = self;
        if complete {
            out.get(..state.at())
        } else {
            None
        }
    }
}

/// Appends a whole frame to `out`: `dc` holds one stream a slice, `ac` as many or none. A refused call appends
/// nothing. Refused: 2, 13, 14.
///
/// ```
/// let layout = vmx::Layout::new(16, 32)?;
/// let mut out = Vec::new();
/// vmx::write(&mut out, &layout, false, 90, 0, &[vec![1], vec![2]], &[vec![3], vec![4]])?;
/// assert_eq!(vmx::Frame::parse(&layout, &out)?.ac(1), Ok(&[4][..]));
/// # Ok::<(), vmx::Refused>(())
/// ```
pub fn write<B: AsRef<[u8]>>(
    out: &mut Vec<u8>,
    layout: &Layout,
    interlaced: bool,
    quality: u8,
    dc_shift: u32,
    dc: &[B],
    ac: &[B],
) -> Verdict {
    let start = out.len();
    let total: usize = dc.iter().chain(ac).map(|s| s.as_ref().len() + 4).sum();
    out.resize(start + 5 + total, 0);
    let built = put_all(&mut out[start..], layout, interlaced, (quality, dc_shift), dc, ac);
    out.truncate(start + built.unwrap_or(0));
    built.map(|_| ())
}

/// The frame's length.
fn put_all<B: AsRef<[u8]>>(
    out: &mut [u8],
    layout: &Layout,
    interlaced: bool,
    (quality, dc_shift): (u8, u32),
    dc: &[B],
    ac: &[B],
) -> Result<usize, Refused> {
    let mut builder = FrameBuilder::new(layout, interlaced, quality, dc_shift, out)?;
    for (slice, stream) in dc.iter().enumerate() {
        builder.put_dc(slice, stream.as_ref())?;
    }
    for (slice, stream) in ac.iter().enumerate() {
        builder.put_ac(slice, stream.as_ref())?;
    }
    builder.finish().map(<[u8]>::len).ok_or(Refused::Turn)
}

#[cfg(test)]
mod tests {
    use super::*;

    fn two_slices() -> Layout {
        Layout::new(16, 32).unwrap()
    }

    #[test]
    fn what_is_built_is_read() {
        let layout = two_slices();
        let (dc, ac) = ([vec![1, 2, 3], vec![]], [vec![4], vec![5, 6]]);
        for shift in [0, 4] {
            let mut out = vec![0xEE; 3];
            write(&mut out, &layout, true, 36, shift, &dc, &ac).unwrap();
            assert_eq!(out[..3], [0xEE; 3]);
            let frame = Frame::parse(&layout, &out[3..]).unwrap();
            let info = frame.info();
            assert_eq!((info.quality, info.preset, info.dc_shift, info.has_ac), (36, 24, shift, true));
            assert!(!info.interlaced, "32 rows are never interlaced");
            assert_eq!(info.header_len, if shift == 0 { 3 } else { 5 });
            for s in 0..2 {
                assert_eq!((frame.dc(s), frame.ac(s)), (Ok(&dc[s][..]), Ok(&ac[s][..])));
            }
            let short = &out[3..3 + frame.preview_len()];
            let preview = Frame::parse(&layout, short).unwrap();
            assert!(!preview.info().has_ac);
            assert_eq!((preview.dc(0), preview.ac(0)), (Ok(&dc[0][..]), Err(Refused::Turn)));
        }
    }

    /// The call for all streams hands out what the call for one does.
    #[test]
    fn each_stream_is_where_it_is_found_alone() {
        let layout = Layout::new(18, 480).unwrap();
        let slices = layout.slices();
        let streams: Vec<Vec<u8>> = (0..slices).map(|s| vec![s as u8; s % 5]).collect();
        for ac in [&streams[..], &[]] {
            let mut out = Vec::new();
            write(&mut out, &layout, true, 90, 2, &streams, ac).unwrap();
            let frame = Frame::parse(&layout, &out).unwrap();
            for (is_ac, s) in (0..slices + 2).flat_map(|s| [(false, s), (true, s)]) {
                let alone = ffi::stream(18, 480, &out, is_ac, s).map(|(offset, len)| &out[offset..offset + len]);
                assert_eq!(if is_ac { frame.ac(s) } else { frame.dc(s) }, alone, "slice {s}");
            }
        }
    }

    #[test]
    fn a_refused_frame_leaves_the_views() {
        let layout = two_slices();
        let mut out = Vec::new();
        write(&mut out, &layout, false, 90, 0, &[vec![1], vec![2]], &[vec![3], vec![4, 5]]).unwrap();
        let mut views = vec![7; 9];
        let (short, cut) = (&mut views[..7], &out[..out.len() - 1]);
        assert_eq!(ffi::streams(16, 32, &out, short).err(), Some(Refused::Rows));
        assert_eq!(ffi::streams(16, 32, cut, &mut views).err(), Some(Refused::Bytes));
        assert_eq!(views, [7; 9]);
        assert!(ffi::streams(16, 32, &out, &mut views).is_ok());
        assert_eq!(views, [7, 1, 12, 1, 17, 1, 22, 2, 7]);
    }

    #[test]
    fn a_refused_frame_is_not_appended() {
        let layout = two_slices();
        let mut out = vec![7];
        let long = vec![0; layout.max_dc_len() + 1];
        assert_eq!(write(&mut out, &layout, false, 90, 0, &[vec![], long], &[]), Err(Refused::Limit));
        assert_eq!(write(&mut out, &layout, false, 90, 16, &[vec![], vec![]], &[]), Err(Refused::DcShift));
        assert_eq!(write(&mut out, &layout, false, 90, 0, &[vec![]], &[]), Err(Refused::Turn), "a stream is missing");
        let (two, three) = ([vec![], vec![]], [vec![], vec![], vec![]]);
        assert_eq!(write(&mut out, &layout, false, 90, 0, &three, &[]), Err(Refused::Turn), "a stream too many");
        assert_eq!(write(&mut out, &layout, false, 90, 0, &two, &[vec![]]), Err(Refused::Turn), "half of the AC");
        assert_eq!(out, [7]);
    }

    /// Complete after the last DC stream and after the last AC stream, refused calls or not; only then the bytes are handed
    /// out, and they are read.
    #[test]
    fn only_a_complete_frame_is_handed_out() {
        let layout = two_slices();
        let turns = [(false, 0), (false, 1), (true, 0), (true, 1)];
        for puts in 0..=turns.len() {
            let mut out = [0; 64];
            let mut builder = FrameBuilder::new(&layout, false, 90, 0, &mut out).unwrap();
            for &(ac, slice) in &turns[..puts] {
                assert_eq!(builder.put_ac(2, &[]), Err(Refused::Turn));
                let put = if ac { builder.put_ac(slice, &[7]) } else { builder.put_dc(slice, &[7]) };
                assert_eq!(put, Ok(()));
            }
            let complete = puts == 2 || puts == 4;
            assert_eq!(builder.is_complete(), complete, "{puts} streams");
            let frame = builder.finish();
            assert_eq!(frame.map(<[u8]>::len), if complete { Some(3 + 5 * puts) } else { None });
            assert!(frame.is_none_or(|f| Frame::parse(&layout, f).unwrap().info().has_ac == (puts == 4)));
        }
    }

    /// The limit of a DC stream is the DC limit, wherever the frame stands.
    #[test]
    fn each_kind_has_its_limit() {
        let layout = Layout::new(16, 16).unwrap();
        let mut out = vec![0; 4096];
        let mut builder = FrameBuilder::new(&layout, false, 90, 0, &mut out).unwrap();
        assert_eq!(builder.put_dc(0, &[0; 800]), Err(Refused::Limit));
        assert_eq!(builder.put_dc(0, &[0; 512]), Ok(()));
        assert_eq!(builder.put_ac(0, &[0; 897]), Err(Refused::Limit));
        assert_eq!(builder.put_ac(0, &[0; 896]), Ok(()));
    }

    #[test]
    fn every_cut_of_a_frame_is_refused_or_has_no_ac() {
        let layout = two_slices();
        let mut out = Vec::new();
        write(&mut out, &layout, false, 90, 3, &[vec![1], vec![2]], &[vec![3], vec![4]]).unwrap();
        let whole = Frame::parse(&layout, &out).unwrap().preview_len();
        for n in 0..out.len() {
            match Frame::parse(&layout, &out[..n]) {
                Ok(frame) => assert!(n == whole && !frame.info().has_ac),
                Err(refused) => assert_eq!(refused, Refused::Bytes, "{n} bytes"),
            }
        }
    }
}
