//! vmx fuzz: damages files at random, reads each of them in every way, and checks that nothing crashes and that a
//! refusal changes nothing.

use vmx::{
    block_report, decode_plane_preview, decode_slice, Decoder, Depth, Encoder, Frame, Layout, Picture, PlaneMut,
    Preview, Sample, StreamReader, Verdict,
};

use crate::args::Args;
use crate::fail::{print, Fail, Outcome};
use crate::file::{self, Next};
use crate::random::Random;
use crate::words::{count, grouped};
use crate::{decode, info, preview, y4m};

/// Damaged copies made of one file.
const COPIES: usize = 40;

pub fn command(args: &Args) -> Result<Outcome, Fail> {
    let [n, seed] = args.words(["N", "SEED"])?;
    let number = |text: &str| text.parse::<u64>().map_err(|_| Fail::Usage(format!("'{text}' is no number")));
    let (n, seed) = (number(n)? as usize, number(seed)?);
    let mut random = Random::new(seed);
    let mut seen = Seen::default();
    let mut file = Vec::new();
    for i in 0..n {
        if i % COPIES == 0 {
            file = if random.below(2) == 0 { whole_file::<u8>(&mut random) } else { whole_file::<u16>(&mut random) }?;
        }
        let mut damaged = file.clone();
        for _ in 0..1 + random.below(4) {
            damage(&mut damaged, &mut random);
        }
        check(&damaged, &mut random, &mut seen).map_err(|e| format!("seed {seed}, file {i}: {e}"))?;
    }
    print(format_args!(
        "{}: {} not read at all, {} refused, {} refused and {} accepted; no crash, and no sample changed on refusal",
        count(n, "damaged file"),
        grouped(seen.files),
        count(seen.frames, "frame"),
        count(seen.slices, "slice"),
        count(seen.accepted, "slice")
    ))?;
    Ok(Outcome::Done)
}

/// What was met.
#[derive(Default)]
struct Seen {
    files: usize,
    frames: usize,
    slices: usize,
    accepted: usize,
}

/// A small file of one to three frames.
fn whole_file<S: Sample>(random: &mut Random) -> Result<Vec<u8>, Fail> {
    let (width, height) = (16 + 2 * random.below(30), 16 + random.below(60));
    let format = y4m::Format::new(width, height, S::DEPTH);
    let mut encoder = Encoder::new(width, height).map_err(|e| e.to_string())?;
    encoder.set_quality(36 + random.below(64) as u8);
    encoder.set_dc_shift(random.below(16) as u32 * random.below(2) as u32);
    encoder.set_threads(1);
    let mut out = Vec::new();
    let mut writer = file::Writer::new(&mut out, "memory", &format)?;
    for _ in 0..1 + random.below(3) {
        let picture = noise::<S>(encoder.layout(), random);
        let frame = encoder.encode(&picture, false).map_err(|e| e.to_string())?;
        let cut = if random.below(8) == 0 {
            Frame::parse(encoder.layout(), &frame).map_or(0, |f| f.preview_len())
        } else {
            frame.len()
        };
        writer.frame(&frame[..cut])?;
    }
    writer.finish()?;
    Ok(out)
}

fn noise<S: Sample>(layout: &Layout, random: &mut Random) -> Picture<S> {
    let mut picture = Picture::new(layout, false);
    let (base, spread) = (random.below(700), 1 + random.below(300));
    for p in 0..3 {
        for v in picture.plane_mut(p) {
            *v = S::from_lane((base + random.below(spread)) as u16);
        }
    }
    picture
}

/// One change of a file.
fn damage(file: &mut Vec<u8>, random: &mut Random) {
    if file.is_empty() {
        return;
    }
    // Mostly after the header line.
    let first = if random.below(10) == 0 { 0 } else { file.len().min(36) };
    let at = first + random.below((file.len() - first).max(1));
    let at = at.min(file.len() - 1);
    let end = |n: usize| (at + n).min(file.len());
    match random.below(10) {
        0 => file[at] ^= 1 << random.below(8),
        1 => file[at] = random.next() as u8,
        2 => {
            let end = end(1 + random.below(20));
            file[at..end].fill_with(|| random.next() as u8);
        }
        3 => file.truncate(at),
        4 => {
            let end = end(1 + random.below(9));
            file.drain(at..end);
        }
        5 => {
            let more: Vec<u8> = (0..1 + random.below(9)).map(|_| random.next() as u8).collect();
            file.splice(at..at, more);
        }
        6 => {
            let end = end(4);
            let word = (random.next() as u32 >> random.below(32)).to_le_bytes();
            file[at..end].copy_from_slice(&word[..end - at]);
        }
        // Zeros in a row make bad codes.
        _ => {
            let end = end(6 + random.below(12));
            file[at..end].fill(0);
        }
    }
}

/// Reads a file in every way.
fn check(bytes: &[u8], random: &mut Random, seen: &mut Seen) -> Result<(), String> {
    let open = || file::Reader::new(bytes, "memory");
    let Ok(mut reader) = open() else {
        seen.files += 1;
        return Ok(());
    };
    if reader.layout.slices() > 64 || reader.format.width > 512 {
        return Ok(()); // a damaged header that only makes this slow
    }
    let depth = if random.below(2) == 0 { Depth::Eight } else { Depth::Ten };
    // The commands: whatever they say is well, as long as they end.
    let (mut quiet, mut nothing) = (|_: &str, _: Option<usize>| {}, std::io::sink());
    let writer = |out| y4m::Writer::new(out, "memory", &y4m::Format { depth, ..reader.format.clone() });
    let (mut video, mut small) = (Vec::new(), Vec::new());
    let _ = match (depth, writer(&mut video), open(), open()) {
        (Depth::Eight, Ok(w), Ok(a), Ok(b)) => (
            decode::run::<u8, _, _>(a, w, 1, &mut quiet).is_ok(),
            info::run::<u8, _>(b, "memory", false, &mut nothing).is_ok(),
        ),
        (Depth::Ten, Ok(w), Ok(a), Ok(b)) => (
            decode::run::<u16, _, _>(a, w, 1, &mut quiet).is_ok(),
            info::run::<u16, _>(b, "memory", false, &mut nothing).is_ok(),
        ),
        _ => return Err("the file is read once and not again".into()),
    };
    if let Ok(again) = open() {
        let _ = preview::run(again, &mut small, "memory", &mut |_| {});
    }
    // The calls: a refusal changes nothing.
    let mut shown = (Shown::<u8>::new(&reader)?, Shown::<u16>::new(&reader)?);
    let layout = reader.layout;
    while let Ok(Next::Frame(frame) | Next::Cut(frame)) = reader.next() {
        match depth {
            Depth::Eight => {
                shown.0.frame(frame, seen)?;
                slices::<u8>(&layout, frame, random)?;
            }
            Depth::Ten => {
                shown.1.frame(frame, seen)?;
                slices::<u16>(&layout, frame, random)?;
            }
        }
    }
    Ok(())
}

/// What a viewer sees.
struct Shown<S> {
    decoder: Decoder<S>,
    preview: Preview,
    time: u64,
}

impl<S: Sample> Shown<S> {
    fn new<R>(reader: &file::Reader<R>) -> Result<Self, String> {
        let (w, h) = (reader.format.width, reader.format.height);
        let mut decoder = Decoder::new(w, h, false).map_err(|e| e.to_string())?;
        decoder.set_threads(1);
        Ok(Shown { decoder, preview: Preview::new(w, h, false).map_err(|e| e.to_string())?, time: 0 })
    }

    fn frame(&mut self, frame: &[u8], seen: &mut Seen) -> Result<(), String> {
        self.time += 1;
        let (before, times) = (self.decoder.shown().clone(), self.decoder.times().to_vec());
        match self.decoder.decode(frame, self.time) {
            Err(_) => {
                seen.frames += 1;
                if *self.decoder.shown() != before || self.decoder.times() != times {
                    return Err("a refused frame changed what is shown".into());
                }
            }
            Ok(verdicts) => {
                for (s, verdict) in verdicts.iter().enumerate() {
                    let held = verdict.is_err();
                    *if held { &mut seen.slices } else { &mut seen.accepted } += 1;
                    let same = before.slice(s).iter().zip(self.decoder.shown().slice(s)).all(|(a, b)| a.rows == b.rows);
                    let time = if held { times[s] } else { self.time };
                    if held && !same || self.decoder.times()[s] != time {
                        return Err(format!("slice {s}: {verdict:?}, and something else is shown"));
                    }
                }
            }
        }
        let _ = self.preview.decode(frame);
        Ok(())
    }
}

const GUARD: usize = 24;

/// Reads each slice by the calls themselves, into rows with guards after them.
fn slices<S: Sample>(layout: &Layout, frame: &[u8], random: &mut Random) -> Result<(), String> {
    let Ok(frame) = Frame::parse(layout, frame) else { return Ok(()) };
    let info = frame.info();
    for s in 0..layout.slices() {
        let dc = frame.dc(s).map_err(|e| e.to_string())?;
        let ac = frame.ac(s).unwrap_or(&[]);
        let strides = &layout.strides()[..3];
        let rows = |&stride: &usize| vec![S::from_lane(77); 16 * stride + GUARD];
        let before: Vec<Vec<S>> = strides.iter().map(rows).collect();
        let mut after = before.clone();
        let start = random.below(3) * random.below(9);
        let (mut d, mut a) = (StreamReader::at(dc, start), StreamReader::at(ac, start));
        let mut planes: Vec<_> =
            after.iter_mut().zip(strides).map(|(rows, &stride)| PlaneMut { rows, stride }).collect();
        let verdict = decode_slice(&mut planes, info.preset, info.dc_shift, &mut d, &mut a);
        let kept = |p: usize, from: usize| before[p][from..] == after[p][from..];
        let unchanged = match verdict {
            Err(_) => (0..3).all(|p| kept(p, 0)) && d.pos() == start && a.pos() == start,
            Ok(()) => strides.iter().enumerate().all(|(p, &stride)| kept(p, 16 * stride)),
        };
        if !unchanged {
            return Err(format!("slice {s}: {verdict:?}, and a sample or position is not what it was"));
        }
        outputs(layout, dc, ac, info.dc_shift)?;
    }
    Ok(())
}

/// The preview and the block report of plane 0.
fn outputs(layout: &Layout, dc: &[u8], ac: &[u8], dc_shift: u32) -> Result<(), String> {
    let stride = layout.strides()[0];
    let (mut upper, mut lower) = (vec![9; stride / 8 + 3], vec![9; stride / 8 + 3]);
    let mut reader = StreamReader::new(dc);
    let verdict = decode_plane_preview(&mut upper, &mut lower, stride, 0, dc_shift, &mut reader);
    let from = |n: usize, verdict: Verdict| if verdict.is_ok() { n } else { 0 };
    let clean = |bytes: &[u8], from: usize| bytes[from..].iter().all(|&b| b == 9);
    let first = from(stride / 8, verdict);
    if !clean(&upper, first) || !clean(&lower, first) || verdict.is_err() && reader.pos() != 0 {
        return Err(format!("preview: {verdict:?}, and a byte is not what it was"));
    }
    let mut report = vec![9; stride / 4 + 3];
    let mut reader = StreamReader::new(ac);
    let verdict = block_report(&mut report, stride, &mut reader);
    let flags = report[..stride / 4].iter().all(|&b| b <= 1);
    if !clean(&report, from(stride / 4, verdict)) || verdict.is_ok() != flags {
        return Err(format!("block report: {verdict:?}, and a byte is not what it was"));
    }
    Ok(())
}
