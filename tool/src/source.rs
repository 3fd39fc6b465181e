//! The test picture: colour bars, a ramp, text, noise and fine gratings, which move from frame to frame.

use vmx::{Depth, Layout, Picture, Sample};

use crate::args::Args;
use crate::fail::{Fail, Outcome};
use crate::font;
use crate::random::Random;
use crate::streams::create;
use crate::y4m;

pub fn command(args: &Args) -> Result<Outcome, Fail> {
    let [output] = args.words(["OUT.y4m"])?;
    let depth = args.depth()?.unwrap_or(Depth::Eight);
    let format = y4m::Format::new(640, 360, depth);
    let mut writer = y4m::Writer::new(create(output)?, output, &format)?;
    let layout = format.layout()?;
    for number in 0..10 {
        match depth {
            Depth::Eight => writer.picture(&picture::<u8>(&layout, number), false)?,
            Depth::Ten => writer.picture(&picture::<u16>(&layout, number), false)?,
        }
    }
    writer.finish()?;
    Ok(Outcome::Done)
}

/// Luma and both chroma numbers, of 10 bits.
type Colour = [u16; 3];

const BLACK: Colour = [64, 512, 512];
const GREY: Colour = [340, 512, 512];
const WHITE: Colour = [940, 512, 512];

/// A colour of red, green and blue from 0 to 1 (BT.709).
fn colour([r, g, b]: [f64; 3]) -> Colour {
    let y = 0.2126 * r + 0.7152 * g + 0.0722 * b;
    let chroma = |c: f64, scale: f64| (512.0 + 896.0 * (c - y) / scale).round() as u16;
    [(64.0 + 876.0 * y).round() as u16, chroma(b, 1.8556), chroma(r, 1.5748)]
}

/// White, yellow, cyan, green, magenta, red, blue, black at three quarters.
fn bar(i: usize) -> Colour {
    let on = |bit: usize| if i >> bit & 1 == 0 { 0.75 } else { 0.0 };
    colour([on(1), on(2), on(0)])
}

/// Frame `number` of the test picture.
pub fn picture<S: Sample>(layout: &Layout, number: usize) -> Picture<S> {
    let (w, h) = (layout.width(), layout.height());
    let text = format!("VMX 4:2:2 FRAME {number}");
    let scale = (w / (text.len() * font::ADVANCE + 4)).max(1);
    let mut random = Random::new(number as u64 + 1);
    let moved = number * w / 24;
    let mut at = |x: usize, y: usize| -> Colour {
        let part = y * 100 / h;
        if part < 50 {
            bar((x + moved) % w * 8 / w)
        } else if part < 60 {
            [64 + ((x + moved) % w * 876 / w) as u16, 512, 512]
        } else if part < 82 {
            let (top, dark) = (h * 60 / 100, x >= w * 2 / 3);
            let inside = y >= top + 2 * scale && x >= 2 * scale;
            let ink = inside && font::pixel(&text, x / scale - 2, (y - top) / scale - 2);
            match (ink, dark) {
                (true, false) => WHITE,
                (false, false) => BLACK,
                (true, true) => BLACK,
                (false, true) => colour([0.9, 0.8, 0.2]),
            }
        } else if x < w / 3 {
            [64 + random.below(877) as u16, 512, 512]
        } else if x < w * 2 / 3 {
            let period = 2 + (x - w / 3) * 8 / w;
            if (x + y + number) / period % 2 == 0 {
                WHITE
            } else {
                BLACK
            }
        } else {
            let (dx, dy) = (x as f64 - w as f64 * 0.83, y as f64 - h as f64 * 0.91);
            let v = ((dx * dx + dy * dy) * 0.02 + number as f64).cos();
            [(f64::from(GREY[0]) * (1.0 + 0.7 * v)) as u16, 512, 512]
        }
    };
    let sample = |v: u16| S::from_lane(if S::DEPTH == Depth::Eight { (v + 2) >> 2 } else { v });
    let mut picture = Picture::<S>::new(layout, false);
    for y in 0..h {
        for x in 0..w {
            let [luma, u, v] = at(x, y);
            picture.row_mut(0, y)[x] = sample(luma);
            if x % 2 == 0 {
                picture.row_mut(1, y)[x / 2] = sample(u);
                picture.row_mut(2, y)[x / 2] = sample(v);
            }
        }
    }
    picture.pad(false);
    picture
}
