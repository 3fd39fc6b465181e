//! vmx info

use std::io::{self, Read, Write};

use vmx::{Decoder, Depth, Frame, Preview, Sample, Verdict};

use crate::args::Args;
use crate::fail::{about, Fail, Outcome};
use crate::file;
use crate::file::Next;
use crate::streams::open;
use crate::words::{count, grouped, verdict};

pub fn command(args: &Args) -> Result<Outcome, Fail> {
    let [input] = args.words(["IN.vmx"])?;
    let reader = file::Reader::new(open(input)?, input)?;
    let mut out = io::stdout().lock();
    match reader.format.depth {
        Depth::Eight => run::<u8, _>(reader, input, args.has("--brief"), &mut out),
        Depth::Ten => run::<u16, _>(reader, input, args.has("--brief"), &mut out),
    }
}

pub fn run<S: Sample, R: Read>(
    mut reader: file::Reader<R>,
    name: &str,
    brief: bool,
    out: &mut dyn Write,
) -> Result<Outcome, Fail> {
    let print = |out: &mut dyn Write, line: String| about("standard output", writeln!(out, "{line}"));
    let (f, l) = (reader.format.clone(), reader.layout);
    let fields = match f.fields.as_str() {
        "t" => "in fields, top first",
        "b" => "in fields, bottom first",
        _ => "progressive",
    };
    let slices = count(l.slices(), "slice");
    print(
        out,
        format!(
            "{name}: {} x {}, {} bit, {} frames a second, {fields}, {slices} of 16 rows",
            f.width,
            f.height,
            f.depth.bits(),
            f.rate
        ),
    )?;
    let mut decoder = Decoder::<S>::new(f.width, f.height, false).map_err(|e| e.to_string())?;
    let mut preview = Preview::new(f.width, f.height, false).map_err(|e| e.to_string())?;
    let mut outcome = Outcome::Done;
    for number in 0.. {
        let bytes = match reader.next()? {
            Next::End => break,
            Next::Frame(bytes) => bytes,
            Next::Cut(bytes) => {
                print(out, format!("frame {number}: the file ends within it"))?;
                bytes
            }
        };
        let len = grouped(bytes.len());
        let frame = match Frame::parse(&l, bytes) {
            Ok(frame) => frame,
            Err(e) => {
                outcome = Outcome::Held;
                print(out, format!("frame {number}: {len} bytes, refused: {e}"))?;
                continue;
            }
        };
        // A frame of DC streams only is judged by its preview.
        let judged = if frame.info().has_ac { decoder.decode(bytes, 0) } else { preview.decode(bytes) };
        let verdicts = judged.map_err(|e| e.to_string())?;
        if verdicts.iter().any(Verdict::is_err) {
            outcome = Outcome::Held;
        }
        print(out, format!("frame {number}: {len} bytes, {}", about_frame(&frame, &verdicts)))?;
        if !brief {
            for (s, &v) in verdicts.iter().enumerate() {
                let ac = frame.ac(s).map_or("no".into(), |ac| grouped(ac.len()));
                let dc = frame.dc(s).map_or("no".into(), |dc| grouped(dc.len()));
                print(out, format!("  slice {s:3}: DC {dc:>7} bytes, AC {ac:>7} bytes, {}", verdict(v)))?;
            }
        }
    }
    Ok(outcome)
}

fn about_frame(frame: &Frame, verdicts: &[Verdict]) -> String {
    let info = frame.info();
    let fields = if info.interlaced { "in fields" } else { "progressive" };
    let total = |ac: bool| {
        let len = |s| if ac { frame.ac(s) } else { frame.dc(s) }.map_or(0, <[u8]>::len);
        grouped((0..verdicts.len()).map(len).sum())
    };
    let ac = if info.has_ac { format!("AC {} bytes", total(true)) } else { "no AC".into() };
    let refused = verdicts.iter().filter(|v| v.is_err()).count();
    let judged = match refused {
        0 => format!("all {} accepted", count(verdicts.len(), "slice")),
        n => format!("{} refused", count(n, "slice")),
    };
    let (q, preset, shift) = (info.quality, info.preset, info.dc_shift);
    format!("quality {q} (preset {preset}), DC shift {shift}, {fields}, DC {} bytes, {ac}, {judged}", total(false))
}
