//! Y4M, uncompressed video as ffmpeg and players read and write it: a header line, then frames, each a line `FRAME` and
//! the planes Y, U, V row by row. Here 4:2:2 only: `C422`, a byte a sample, and `C422p10`, two bytes, low one first.

use std::io::{Read, Write};

use vmx::{Depth, Layout, Picture, Sample};

use crate::fail::{about, Fail};
use crate::streams::{read_line, read_up_to};

const LONGEST_LINE: usize = 1024;

/// What a stream of pictures is, in Y4M's own letters.
#[derive(Clone, Debug, PartialEq, Eq)]
pub struct Format {
    pub width: usize,
    pub height: usize,
    pub depth: Depth,
    /// Frames a second, as a fraction.
    pub rate: String,
    /// `p` progressive, `t` or `b` in fields with the top or the bottom one first.
    pub fields: String,
    /// Width of a pixel to its height.
    pub aspect: String,
}

impl Format {
    pub fn new(width: usize, height: usize, depth: Depth) -> Self {
        Format { width, height, depth, rate: "25:1".into(), fields: "p".into(), aspect: "1:1".into() }
    }

    /// Whether the rows come in fields.
    pub fn interlaced(&self) -> bool {
        self.fields == "t" || self.fields == "b"
    }

    /// Takes a field of a header line that names width, height, rate, fields or aspect; false for any other.
    pub fn take(&mut self, field: &str) -> Result<bool, String> {
        let Some(letter) = field.chars().next() else { return Ok(true) };
        let value = &field[letter.len_utf8()..];
        let number = || value.parse().map_err(|_| format!("'{field}' in its header is no size"));
        match letter {
            'W' => self.width = number()?,
            'H' => self.height = number()?,
            'F' => self.rate = value.into(),
            'I' => self.fields = value.into(),
            'A' => self.aspect = value.into(),
            _ => return Ok(false),
        }
        Ok(true)
    }

    /// The fields that `take` takes.
    pub fn common(&self) -> String {
        format!("W{} H{} F{} I{} A{}", self.width, self.height, self.rate, self.fields, self.aspect)
    }

    pub fn layout(&self) -> Result<Layout, String> {
        Layout::new(self.width, self.height).map_err(|e| format!("{} x {}: {e}", self.width, self.height))
    }

    /// Bytes of a frame after its line.
    fn frame_len(&self) -> usize {
        let samples = self.height * (self.width + 2 * (self.width / 2));
        if self.depth == Depth::Eight {
            samples
        } else {
            2 * samples
        }
    }
}

fn header(line: &str) -> Result<Format, String> {
    let mut fields = line.split(' ');
    if fields.next() != Some("YUV4MPEG2") {
        return Err("it is no Y4M file: it does not begin with YUV4MPEG2".into());
    }
    let mut format = Format::new(0, 0, Depth::Eight);
    let mut colour = "420jpeg";
    for field in fields {
        if !format.take(field)? {
            colour = field.strip_prefix('C').unwrap_or(colour);
        }
    }
    format.depth = match colour {
        "422" => Depth::Eight,
        "422p10" => Depth::Ten,
        _ => {
            return Err(format!(
                "its colour format is C{colour}; C422 and C422p10 can be read (ffmpeg: -pix_fmt yuv422p, or yuv422p10le -strict -1)"
            ))
        }
    };
    format.layout()?;
    Ok(format)
}

/// The coded row of each image row.
fn coded_rows(layout: &Layout, interlaced: bool) -> Vec<usize> {
    let mut rows = vec![0; layout.height()];
    for r in 0..layout.aligned_height() {
        if let Some(row) = layout.image_row(r, interlaced) {
            rows[row] = r;
        }
    }
    rows
}

/// A sample number at another depth: two bits more or less, rounded.
fn at_depth(lane: u16, from: Depth, to: Depth) -> u16 {
    match (from, to) {
        (Depth::Eight, Depth::Ten) => lane << 2,
        (Depth::Ten, Depth::Eight) => ((lane.min(1023) + 2) >> 2).min(255),
        _ => lane,
    }
}

pub struct Reader<R> {
    input: R,
    name: String,
    pub format: Format,
    layout: Layout,
    bytes: Vec<u8>,
    frames: usize,
}

impl<R: Read> Reader<R> {
    pub fn new(mut input: R, name: &str) -> Result<Self, Fail> {
        let says = |e: String| Fail::Failed(format!("{name}: {e}"));
        let line = read_line(&mut input, LONGEST_LINE).map_err(says)?.ok_or_else(|| says("it is empty".into()))?;
        let format = header(&line).map_err(says)?;
        let layout = format.layout().map_err(says)?;
        let bytes = vec![0; format.frame_len()];
        Ok(Reader { input, name: name.into(), format, layout, bytes, frames: 0 })
    }

    /// Reads the next frame into the picture, its rows in fields if so said; false at the end.
    pub fn next<S: Sample>(&mut self, picture: &mut Picture<S>, interlaced: bool) -> Result<bool, Fail> {
        let says = |e: String| Fail::Failed(format!("{}, frame {}: {e}", self.name, self.frames));
        match read_line(&mut self.input, LONGEST_LINE).map_err(says)? {
            None => return Ok(false),
            Some(line) if line == "FRAME" || line.starts_with("FRAME ") => {}
            Some(_) => return Err(says("it does not begin with FRAME".into())),
        }
        let there = about(&self.name, read_up_to(&mut self.input, &mut self.bytes))?;
        if there < self.bytes.len() {
            return Err(says(format!("the file ends after {there} of its {} bytes", self.bytes.len())));
        }
        self.fill(picture, interlaced);
        self.frames += 1;
        Ok(true)
    }

    fn fill<S: Sample>(&self, picture: &mut Picture<S>, interlaced: bool) {
        let rows = coded_rows(&self.layout, interlaced);
        let mut at = 0;
        for p in 0..3 {
            for &r in &rows {
                let row = picture.row_mut(p, r);
                match self.format.depth {
                    Depth::Eight => {
                        for (v, &b) in row.iter_mut().zip(&self.bytes[at..]) {
                            *v = S::from_lane(at_depth(b.into(), Depth::Eight, S::DEPTH));
                        }
                        at += row.len();
                    }
                    Depth::Ten => {
                        for (v, b) in row.iter_mut().zip(self.bytes[at..].chunks_exact(2)) {
                            *v = S::from_lane(at_depth(u16::from_le_bytes([b[0], b[1]]), Depth::Ten, S::DEPTH));
                        }
                        at += 2 * row.len();
                    }
                }
            }
        }
        picture.pad(interlaced);
    }
}

pub struct Writer<W> {
    output: W,
    name: String,
    bytes: Vec<u8>,
}

impl<W: Write> Writer<W> {
    pub fn new(mut output: W, name: &str, format: &Format) -> Result<Self, Fail> {
        let colour = match format.depth {
            Depth::Eight => "C422 XYSCSS=422",
            Depth::Ten => "C422p10 XYSCSS=422P10",
        };
        about(name, writeln!(output, "YUV4MPEG2 {} {colour}", format.common()))?;
        Ok(Writer { output, name: name.into(), bytes: Vec::new() })
    }

    /// Writes a picture, its rows in fields if so said, at its own depth.
    pub fn picture<S: Sample>(&mut self, picture: &Picture<S>, interlaced: bool) -> Result<(), Fail> {
        let rows = coded_rows(picture.layout(), interlaced);
        let (height, row) = (rows.len(), |p: usize, y: usize| picture.row(p, rows[y]));
        self.frame(height, row)
    }

    /// Writes a frame, whose rows are asked for plane by plane.
    pub fn frame<'a, S: Sample>(&mut self, height: usize, row: impl Fn(usize, usize) -> &'a [S]) -> Result<(), Fail> {
        self.bytes.clear();
        self.bytes.extend(b"FRAME\n");
        for p in 0..3 {
            for y in 0..height {
                match S::DEPTH {
                    Depth::Eight => self.bytes.extend(row(p, y).iter().map(|v| v.lane() as u8)),
                    Depth::Ten => self.bytes.extend(row(p, y).iter().flat_map(|v| v.lane().to_le_bytes())),
                }
            }
        }
        about(&self.name, self.output.write_all(&self.bytes))
    }

    pub fn finish(mut self) -> Result<(), Fail> {
        about(&self.name, self.output.flush())
    }
}

#[cfg(test)]
mod tests {
    use super::*;

    #[test]
    fn headers() {
        let f = header("YUV4MPEG2 W64 H32 F30000:1001 It A10:11 C422p10 XYSCSS=422P10").unwrap();
        assert_eq!((f.width, f.height, f.depth, f.interlaced()), (64, 32, Depth::Ten, true));
        assert_eq!(f.common(), "W64 H32 F30000:1001 It A10:11");
        for (line, word) in [
            ("YUV4MPEG W64 H32 C422", "no Y4M"),
            ("YUV4MPEG2 W64 H32", "C420jpeg"),
            ("YUV4MPEG2 W64 H32 C444", "C444"),
            ("YUV4MPEG2 W65 H32 C422", "(9)"),
            ("YUV4MPEG2 W64 C422", "(9)"),
            ("YUV4MPEG2 Wmany H32 C422", "no size"),
        ] {
            assert!(header(line).unwrap_err().contains(word), "{line}");
        }
    }

    fn there_and_back<S: Sample>(interlaced: bool) {
        let format = Format::new(18, if interlaced { 480 } else { 17 }, S::DEPTH);
        let layout = format.layout().unwrap();
        let mut picture = Picture::<S>::new(&layout, false);
        let max = if S::DEPTH == Depth::Eight { 255 } else { 1023 };
        for p in 0..3 {
            for r in 0..layout.aligned_height() {
                if let Some(y) = layout.image_row(r, interlaced) {
                    for (x, v) in picture.row_mut(p, r).iter_mut().enumerate() {
                        *v = S::from_lane(((y * 7 + x * 3 + p * 50) % (max + 1)) as u16);
                    }
                }
            }
        }
        picture.pad(interlaced);
        let mut bytes = Vec::new();
        let mut writer = Writer::new(&mut bytes, "memory", &format).unwrap();
        writer.picture(&picture, interlaced).unwrap();
        writer.finish().unwrap();
        let mut reader = Reader::new(&bytes[..], "memory").unwrap();
        assert_eq!(reader.format, format);
        let mut again = Picture::<S>::new(&layout, false);
        assert!(reader.next(&mut again, interlaced).unwrap());
        assert!(again == picture);
        assert!(!reader.next(&mut again, interlaced).unwrap());
        let mut reader = Reader::new(&bytes[..bytes.len() - 1], "memory").unwrap();
        assert!(reader.next(&mut again, interlaced).is_err());
    }

    #[test]
    fn what_is_written_is_read() {
        for interlaced in [false, true] {
            there_and_back::<u8>(interlaced);
            there_and_back::<u16>(interlaced);
        }
    }

    #[test]
    fn depths() {
        for v in 0..256 {
            assert_eq!(at_depth(at_depth(v, Depth::Eight, Depth::Ten), Depth::Ten, Depth::Eight), v);
        }
        assert_eq!(at_depth(1023, Depth::Ten, Depth::Eight), 255);
        assert_eq!(at_depth(65535, Depth::Ten, Depth::Eight), 255);
    }
}
