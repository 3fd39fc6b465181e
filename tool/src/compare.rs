//! vmx compare: how far two videos are apart.

use vmx::{Depth, Picture, Sample};

use crate::args::Args;
use crate::fail::{print, Fail, Outcome};
use crate::streams::open;
use crate::words::count;
use crate::y4m;

pub fn command(args: &Args) -> Result<Outcome, Fail> {
    let [a, b] = args.words(["A.y4m", "B.y4m"])?;
    let (first, second) = (y4m::Reader::new(open(a)?, a)?, y4m::Reader::new(open(b)?, b)?);
    let size = |f: &y4m::Format| (f.width, f.height, f.depth);
    if size(&first.format) != size(&second.format) {
        return Err(Fail::Failed(format!("{a} and {b} differ in size or depth")));
    }
    match first.format.depth {
        Depth::Eight => run::<u8>(first, second),
        Depth::Ten => run::<u16>(first, second),
    }
}

fn run<S: Sample>(
    mut first: y4m::Reader<impl std::io::Read>,
    mut second: y4m::Reader<impl std::io::Read>,
) -> Result<Outcome, Fail> {
    let layout = first.format.layout()?;
    let (mut a, mut b) = (Picture::<S>::new(&layout, false), Picture::<S>::new(&layout, false));
    let mut apart = Apart::default();
    let mut frames = 0;
    loop {
        match (first.next(&mut a, false)?, second.next(&mut b, false)?) {
            (true, true) => apart.add(&a, &b),
            (false, false) => break,
            _ => return Err(Fail::Failed(format!("one of them has {} only", count(frames, "frame")))),
        }
        frames += 1;
    }
    let [y, u, v] = [0, 1, 2].map(|p| words(apart.psnr::<S>(p..p + 1)));
    print(format_args!("{}: PSNR {} (Y {y}, U {u}, V {v})", count(frames, "frame"), words(apart.psnr::<S>(0..3))))?;
    Ok(Outcome::Done)
}

fn words(psnr: f64) -> String {
    if psnr.is_infinite() {
        "equal".into()
    } else {
        format!("{psnr:.2} dB")
    }
}

/// Squared differences of each plane, and the number of samples.
#[derive(Default)]
pub struct Apart {
    squares: [u64; 3],
    samples: [u64; 3],
}

impl Apart {
    /// Adds what is in the image.
    pub fn add<S: Sample>(&mut self, a: &Picture<S>, b: &Picture<S>) {
        for p in 0..3 {
            for r in 0..a.layout().height() {
                for (x, y) in a.row(p, r).iter().zip(b.row(p, r)) {
                    let d = u64::from(x.lane().abs_diff(y.lane()));
                    self.squares[p] += d * d;
                    self.samples[p] += 1;
                }
            }
        }
    }

    /// Peak signal to noise ratio over some of the planes, in dB; infinite where they are equal.
    pub fn psnr<S: Sample>(&self, planes: std::ops::Range<usize>) -> f64 {
        let peak = f64::from((1u32 << S::DEPTH.bits()) - 1);
        let squares: u64 = self.squares[planes.clone()].iter().sum();
        let samples: u64 = self.samples[planes].iter().sum();
        10.0 * (peak * peak * samples as f64 / squares as f64).log10()
    }
}

#[cfg(test)]
mod tests {
    use super::*;

    #[test]
    fn known_distances() {
        let layout = vmx::Layout::new(16, 16).unwrap();
        let a = Picture::<u8>::new(&layout, false);
        let mut b = a.clone();
        let mut apart = Apart::default();
        apart.add(&a, &b);
        assert!(apart.psnr::<u8>(0..3).is_infinite());
        b.plane_mut(0).fill(255);
        let mut apart = Apart::default();
        apart.add(&a, &b);
        assert!(apart.psnr::<u8>(0..1).abs() < 1e-9);
        assert!((apart.psnr::<u8>(0..3) - 10.0 * 2f64.log10()).abs() < 1e-9);
    }
}
