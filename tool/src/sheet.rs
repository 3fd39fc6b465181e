//! Pictures side by side, with labels.

use vmx::{Picture, Preview, Sample};

use crate::font;

/// Red, green, blue.
pub type Rgb = [u8; 3];

pub const INK: Rgb = [235, 235, 235];
pub const PAPER: Rgb = [32, 34, 38];
pub const MARK: Rgb = [255, 80, 60];

/// A picture of RGB pixels.
#[derive(Clone)]
pub struct Canvas {
    pub width: usize,
    pub height: usize,
    pub rgb: Vec<u8>,
}

impl Canvas {
    pub fn new(width: usize, height: usize, fill: Rgb) -> Self {
        Canvas { width, height, rgb: fill.repeat(width * height) }
    }

    pub fn set(&mut self, x: usize, y: usize, value: Rgb) {
        if x < self.width && y < self.height {
            self.rgb[3 * (y * self.width + x)..][..3].copy_from_slice(&value);
        }
    }

    fn get(&self, x: usize, y: usize) -> Rgb {
        let i = 3 * (y * self.width + x);
        [self.rgb[i], self.rgb[i + 1], self.rgb[i + 2]]
    }

    pub fn fill(&mut self, (x, y): (usize, usize), (w, h): (usize, usize), value: Rgb) {
        for v in y..y + h {
            for u in x..x + w {
                self.set(u, v, value);
            }
        }
    }

    pub fn text(&mut self, (x, y): (usize, usize), scale: usize, text: &str, ink: Rgb) {
        for v in 0..font::HEIGHT * scale {
            for u in 0..text.chars().count() * font::ADVANCE * scale {
                if font::pixel(text, u / scale, v / scale) {
                    self.set(x + u, y + v, ink);
                }
            }
        }
    }

    /// Puts a picture's part here, each pixel `scale` times as large.
    pub fn put(&mut self, (x, y): (usize, usize), part: &Canvas, scale: usize) {
        for v in 0..part.height * scale {
            for u in 0..part.width * scale {
                self.set(x + u, y + v, part.get(u / scale, v / scale));
            }
        }
    }

    /// A part of it.
    pub fn cut(&self, (x, y): (usize, usize), (w, h): (usize, usize)) -> Canvas {
        let mut part = Canvas::new(w, h, PAPER);
        for v in 0..h {
            for u in 0..w {
                part.set(u, v, self.get(x + u, y + v));
            }
        }
        part
    }
}

/// A colour of luma and chroma as fractions of their ranges (BT.709, video levels).
fn rgb(y: f64, u: f64, v: f64) -> Rgb {
    let (y, u, v) = ((y - 16.0) / 219.0, (u - 128.0) / 224.0, (v - 128.0) / 224.0);
    [y + 1.5748 * v, y - 0.1873 * u - 0.4681 * v, y + 1.8556 * u].map(|c| (255.0 * c).round().clamp(0.0, 255.0) as u8)
}

/// A progressive picture in colour.
pub fn in_colour<S: Sample>(picture: &Picture<S>) -> Canvas {
    let layout = picture.layout();
    let level = |v: S| f64::from(v.lane()) / f64::from(1u32 << (S::DEPTH.bits() - 8));
    let mut canvas = Canvas::new(layout.width(), layout.height(), PAPER);
    for y in 0..canvas.height {
        let [luma, u, v] = [0, 1, 2].map(|p| picture.row(p, y));
        for x in 0..canvas.width {
            canvas.set(x, y, rgb(level(luma[x]), level(u[x / 2]), level(v[x / 2])));
        }
    }
    canvas
}

/// A preview in colour.
pub fn preview_in_colour(preview: &Preview) -> Canvas {
    let (width, height) = preview.size();
    let mut canvas = Canvas::new(width, height, PAPER);
    for y in 0..height {
        let [luma, u, v] = [0, 1, 2].map(|p| preview.row(p, y));
        for x in 0..width {
            canvas.set(x, y, rgb(luma[x].into(), u[x / 2].into(), v[x / 2].into()));
        }
    }
    canvas
}
