//! vmx demo: a test picture coded, read, damaged and read again, with pictures of what is shown.

use std::fs;
use std::path::Path;
use std::time::Instant;

use vmx::{Decoder, Depth, Encoder, Frame, Layout, Picture, Preview, Refused, Sample};

use crate::args::Args;
use crate::compare::Apart;
use crate::fail::{about, print, Fail, Outcome};
use crate::sheet::{in_colour, preview_in_colour, Canvas, INK, MARK, PAPER};
use crate::words::{count, grouped, shown, verdict};
use crate::{file, png, source, y4m};

const WIDTH: usize = 480;
const HEIGHT: usize = 270;
const QUALITY: u8 = 90;
/// The slice that is damaged.
const SLICE: usize = 4;

pub fn command(args: &Args) -> Result<Outcome, Fail> {
    let [folder] = args.words(["FOLDER"])?;
    let folder = Path::new(folder);
    about(folder.display(), fs::create_dir_all(folder))?;
    print(format_args!(
        "Test picture, {WIDTH} x {HEIGHT}, 4:2:2, two frames: colour bars, a ramp, text, noise, gratings."
    ))?;
    one_depth::<u8>(folder)?;
    one_depth::<u16>(folder)?;
    timings::<u8>()?;
    timings::<u16>()?;
    print(format_args!("Try: vmx info --brief {}", folder.join("damaged8.vmx").display()))?;
    Ok(Outcome::Done)
}

fn words(e: Refused) -> Fail {
    Fail::Failed(e.to_string())
}

fn one_depth<S: Both>(folder: &Path) -> Result<(), Fail> {
    let bits = S::DEPTH.bits();
    let mut encoder = Encoder::new(WIDTH, HEIGHT).map_err(words)?;
    encoder.set_quality(QUALITY);
    let layout = *encoder.layout();
    let originals = [0, 1].map(|n| source::picture::<S>(&layout, n));
    let frames =
        [encoder.encode(&originals[0], false).map_err(words)?, encoder.encode(&originals[1], false).map_err(words)?];

    let mut decoder = Decoder::<S>::new(WIDTH, HEIGHT, false).map_err(words)?;
    decoder.decode(&frames[0], 1).map_err(words)?;
    let held = decoder.shown().clone();
    let mut whole = decoder.clone();
    let verdicts = whole.decode(&frames[1], 2).map_err(words)?;
    let accepted = verdicts.iter().filter(|v| v.is_ok()).count();
    let mut apart = Apart::default();
    apart.add(&originals[1], whole.shown());

    let raw = layout.height() * 2 * layout.width() * bits as usize / 8;
    print("")?;
    print(format_args!(
        "{bits} bit: a frame is {} bytes ({} raw) at quality {QUALITY}; {accepted} of {} accepted; PSNR {:.1} dB.",
        grouped(frames[1].len()),
        grouped(raw),
        count(layout.slices(), "slice"),
        apart.psnr::<S>(0..3)
    ))?;

    let (damaged, place) = damage(&layout, &frames[1])?;
    let verdicts = decoder.decode(&damaged, 2).map_err(words)?;
    print(format_args!(
        "  Frame 1 with seven zero bytes at byte {place} of the DC stream of slice {SLICE}: slice {SLICE} {}; its rows {}.",
        verdict(verdicts[SLICE]),
        shown(decoder.times()[SLICE]).replace("shows", "show")
    ))?;
    let others = verdicts.iter().enumerate().filter(|(s, v)| *s != SLICE && v.is_ok()).count();
    print(format_args!("  The other {} accepted; they show frame 1.", count(others, "slice")))?;

    let mut preview = Preview::new(WIDTH, HEIGHT, false).map_err(words)?;
    preview.decode(&frames[1]).map_err(words)?;
    let rust = rust_leaves(&held, &damaged)?;
    let pictures = Pictures {
        original: in_colour(&originals[1]),
        decoded: in_colour(whole.shown()),
        shown: in_colour(decoder.shown()),
        preview: preview_in_colour(&preview),
        rust: rust.as_ref().map(in_colour),
    };
    let name = folder.join(format!("sheet{bits}.png"));
    let sheet = sheet(&pictures, bits);
    about(name.display(), fs::write(&name, png::png(sheet.width, sheet.height, &sheet.rgb)))?;
    print(format_args!(
        "  {}: original, decoded, damaged with its held band, preview{}",
        name.display(),
        if rust.is_some() { ", and what the Rust leaves of the slice." } else { "." }
    ))?;

    write_files(folder, &originals, &frames, &damaged)
}

/// Seven zero bytes in the slice's DC stream, from its middle on at the first place where they make a bad code; the
/// frame and that place.
fn damage(layout: &Layout, frame: &[u8]) -> Result<(Vec<u8>, usize), Fail> {
    let dc = Frame::parse(layout, frame).and_then(|f| f.dc(SLICE)).map_err(words)?;
    let start = dc.as_ptr() as usize - frame.as_ptr() as usize;
    for place in dc.len() * 2 / 5..dc.len().saturating_sub(7) {
        let mut damaged = frame.to_vec();
        damaged[start + place..start + place + 7].fill(0);
        let verdicts = Preview::new(layout.width(), layout.height(), false).and_then(|mut p| p.decode(&damaged));
        if verdicts.map_err(words)?[SLICE] == Err(Refused::Code) {
            return Ok((damaged, place));
        }
    }
    Err(Fail::Failed("no place for a bad code was found".into()))
}

struct Pictures {
    original: Canvas,
    decoded: Canvas,
    shown: Canvas,
    preview: Canvas,
    rust: Option<Canvas>,
}

const GAP: usize = 14;
const LABEL: usize = 14;

/// Two columns of pictures, each under its label; marks point at the damaged slice's rows.
fn sheet(p: &Pictures, bits: u32) -> Canvas {
    let band = (0, SLICE * 16);
    let mut large = Canvas::new(WIDTH, HEIGHT, PAPER);
    large.put((0, 0), &p.preview, WIDTH / p.preview.width);
    let zoom = |from: &Canvas| from.cut((WIDTH / 8, band.1 - 9), (WIDTH / 4, 32));
    let mut detail = Canvas::new(WIDTH, HEIGHT, PAPER);
    detail.put((0, 0), &zoom(&p.shown), 4);
    if let Some(rust) = &p.rust {
        detail.put((0, HEIGHT - 128), &zoom(rust), 4);
    }
    let mut panels = vec![
        (format!("ORIGINAL, {bits} BIT, FRAME 1"), &p.original, false),
        ("DECODED".to_string(), &p.decoded, false),
        ("ONE SLICE DAMAGED: ITS BAND IS HELD FROM FRAME 0".to_string(), &p.shown, true),
        ("PREVIEW, ENLARGED 8 TIMES".to_string(), &large, false),
    ];
    if let Some(rust) = &p.rust {
        panels.push(("WHAT THE RUST LEAVES: OLD BLOCKS BESIDE NEW".to_string(), rust, true));
        panels.push(("THE BAND, ENLARGED: OURS ABOVE, THE RUST BELOW".to_string(), &detail, false));
    }
    let (across, down) = (WIDTH + GAP, HEIGHT + LABEL + GAP);
    let mut sheet = Canvas::new(2 * across + GAP, panels.len().div_ceil(2) * down + GAP, PAPER);
    for (i, (label, picture, marked)) in panels.iter().enumerate() {
        let (x, y) = (GAP + i % 2 * across, GAP + i / 2 * down);
        sheet.text((x, y), 1, label, INK);
        sheet.put((x, y + LABEL), picture, 1);
        if *marked {
            for side in [x - 8, x + WIDTH + 2] {
                sheet.fill((side, y + LABEL + band.1), (6, 16), MARK);
            }
        }
    }
    sheet
}

/// The videos, for the other commands and for players.
fn write_files<S: Sample>(
    folder: &Path,
    originals: &[Picture<S>; 2],
    frames: &[Vec<u8>; 2],
    damaged: &[u8],
) -> Result<(), Fail> {
    let bits = S::DEPTH.bits();
    let format = y4m::Format::new(WIDTH, HEIGHT, S::DEPTH);
    let create = |name: String| {
        let path = folder.join(name).display().to_string();
        crate::streams::create(&path).map(|out| (out, path))
    };
    let (out, path) = create(format!("test{bits}.y4m"))?;
    let mut writer = y4m::Writer::new(out, &path, &format)?;
    for picture in originals {
        writer.picture(picture, false)?;
    }
    writer.finish()?;
    for (name, second) in [("test", &frames[1][..]), ("damaged", damaged)] {
        let (out, path) = create(format!("{name}{bits}.vmx"))?;
        let mut writer = file::Writer::new(out, &path, &format)?;
        writer.frame(&frames[0])?;
        writer.frame(second)?;
        writer.finish()?;
    }
    Ok(())
}

/// The time of a frame of 1920 x 1080, the best of some.
fn timings<S: Sample>() -> Result<(), Fail> {
    const TURNS: usize = 8;
    let mut encoder = Encoder::new(1920, 1080).map_err(words)?;
    encoder.set_quality(QUALITY);
    let mut decoder = Decoder::<S>::new(1920, 1080, false).map_err(words)?;
    let picture = source::picture::<S>(encoder.layout(), 0);
    let best = |work: &mut dyn FnMut() -> Result<(), Refused>| -> Result<f64, Fail> {
        let mut best = f64::INFINITY;
        for _ in 0..TURNS {
            let start = Instant::now();
            work().map_err(words)?;
            best = best.min(start.elapsed().as_secs_f64());
        }
        Ok(1000.0 * best)
    };
    let mut frame = Vec::new();
    let coding = best(&mut || encoder.encode(&picture, false).map(|f| frame = f))?;
    let reading = best(&mut || decoder.decode(&frame, 1).map(|_| ()))?;
    if S::DEPTH == Depth::Eight {
        print("")?;
        print(format_args!("A frame of 1920 x 1080 on {}:", count(vmx::all_cores(), "core")))?;
    }
    print(format_args!("  {:2} bit: coded in {coding:.1} ms, read in {reading:.1} ms.", S::DEPTH.bits()))?;
    Ok(())
}

/// A sample type of both codecs.
#[cfg(feature = "reference")]
pub trait Both: Sample + reference::api::slice::Sample {}
#[cfg(not(feature = "reference"))]
pub trait Both: Sample {}
impl Both for u8 {}
impl Both for u16 {}

/// What the Rust's planes hold after it read the damaged frame over the held picture: it stops at the bad code, with
/// the blocks before it stored. Nothing without its sources.
#[cfg(feature = "reference")]
fn rust_leaves<S: Both>(held: &Picture<S>, damaged: &[u8]) -> Result<Option<Picture<S>>, Fail> {
    let layout = *held.layout();
    let frame = Frame::parse(&layout, damaged).map_err(words)?;
    let info = frame.info();
    let numbers = reference::api::tables::quant(info.preset);
    let mut picture = held.clone();
    for s in 0..layout.slices() {
        let mut planes: Vec<(usize, Vec<S>)> = picture.slice(s).iter().map(|p| (p.stride, p.rows.to_vec())).collect();
        let (dc, ac) = (frame.dc(s).map_err(words)?, frame.ac(s).map_err(words)?);
        reference::api::slice::decode_one_slice(&mut planes, dc, ac, &numbers.decode, info.dc_shift);
        for (p, (stride, rows)) in planes.iter().enumerate() {
            picture.plane_mut(p)[s * 16 * stride..(s + 1) * 16 * stride].copy_from_slice(rows);
        }
    }
    Ok(Some(picture))
}

#[cfg(not(feature = "reference"))]
fn rust_leaves<S: Both>(_held: &Picture<S>, _damaged: &[u8]) -> Result<Option<Picture<S>>, Fail> {
    Ok(None)
}
