//! vmx encode

use std::io::{Read, Write};

use vmx::{Depth, Encoder, Picture, Refused, Sample};

use crate::args::Args;
use crate::fail::{Fail, Outcome};
use crate::progress::Progress;
use crate::streams::{create, open};
use crate::{file, y4m};

/// Below this quality there is no preset.
const LEAST_QUALITY: u8 = 36;
const BEST_QUALITY: u8 = 99;
const QUALITY: u8 = 90;

pub struct Settings {
    pub quality: u8,
    pub dc_shift: u32,
    pub threads: usize,
}

pub fn command(args: &Args) -> Result<Outcome, Fail> {
    let [input, output] = args.words(["IN.y4m", "OUT.vmx"])?;
    let settings = Settings {
        quality: args.number("--quality", LEAST_QUALITY, BEST_QUALITY)?.unwrap_or(QUALITY),
        dc_shift: args.number("--dc-shift", 0, 15)?.unwrap_or(0),
        threads: args.threads()?,
    };
    let depth = args.depth()?;
    let reader = y4m::Reader::new(open(input)?, input)?;
    let depth = depth.unwrap_or(reader.format.depth);
    let writer = file::Writer::new(create(output)?, output, &y4m::Format { depth, ..reader.format.clone() })?;
    match depth {
        Depth::Eight => run::<u8, _, _>(reader, writer, &settings),
        Depth::Ten => run::<u16, _, _>(reader, writer, &settings),
    }
}

pub fn run<S: Sample, R: Read, W: Write>(
    mut reader: y4m::Reader<R>,
    mut writer: file::Writer<W>,
    settings: &Settings,
) -> Result<Outcome, Fail> {
    let mut encoder = encoder(&reader.format, settings)?;
    let interlaced = reader.format.interlaced() && encoder.layout().interlace_capable();
    let mut picture = Picture::<S>::new(encoder.layout(), false);
    let mut progress = Progress::new();
    for number in 0.. {
        if !reader.next(&mut picture, interlaced)? {
            break;
        }
        let (frame, quality) = encode_below(&mut encoder, settings.quality, &picture, interlaced)
            .map_err(|e| format!("frame {number} cannot be coded: {e}"))?;
        if quality < vmx::quality_preset(settings.quality).0 {
            progress.say(&format!("frame {number}: too long at quality {}, coded at {quality}", settings.quality));
        }
        writer.frame(&frame)?;
        progress.frame(frame.len());
    }
    writer.finish()?;
    Ok(Outcome::Done)
}

pub fn encoder(format: &y4m::Format, settings: &Settings) -> Result<Encoder, Fail> {
    let mut encoder = Encoder::new(format.width, format.height).map_err(|e| e.to_string())?;
    encoder.set_quality(settings.quality);
    encoder.set_dc_shift(settings.dc_shift);
    encoder.set_threads(settings.threads);
    Ok(encoder)
}

/// The frame at the highest quality up to the given one at which no slice is too long for a frame, and that quality.
fn encode_below<S: Sample>(
    encoder: &mut Encoder,
    quality: u8,
    picture: &Picture<S>,
    interlaced: bool,
) -> Result<(Vec<u8>, u8), Refused> {
    let mut quality = quality;
    loop {
        encoder.set_quality(quality);
        match encoder.encode(picture, interlaced) {
            Err(Refused::Limit) if quality > LEAST_QUALITY => quality = encoder.quality() - 1,
            answer => return answer.map(|frame| (frame, encoder.quality())),
        }
    }
}

#[cfg(test)]
mod tests {
    use super::*;
    use crate::random::Random;

    #[test]
    fn a_frame_too_long_is_coded_at_a_lower_quality() {
        let mut encoder = Encoder::new(64, 32).unwrap();
        // with alpha, since three planes of noise fit
        let mut picture = Picture::<u8>::new(encoder.layout(), true);
        let mut random = Random::new(1);
        for p in 0..4 {
            picture.plane_mut(p).fill_with(|| 255 * random.below(2) as u8);
        }
        encoder.set_quality(99);
        let alone = encoder.encode(&picture, false);
        assert_eq!(alone, Err(Refused::Limit), "noise of 0 and 255 is too long at quality 99");
        let (frame, quality) = encode_below(&mut encoder, 99, &picture, false).unwrap();
        assert!(quality < 99);
        assert_eq!(vmx::Frame::parse(encoder.layout(), &frame).unwrap().info().quality, quality);
    }
}
