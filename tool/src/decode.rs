//! vmx decode

use std::io::{Read, Write};

use vmx::{Decoder, Depth, Refused, Sample, Verdict};

use crate::args::Args;
use crate::fail::{Fail, Outcome};
use crate::file::Next;
use crate::progress::Progress;
use crate::streams::{create, open};
use crate::words::{count, shown};
use crate::{file, y4m};

/// Refused slices of one frame that get a line of their own.
const LINES: usize = 5;

pub fn command(args: &Args) -> Result<Outcome, Fail> {
    let [input, output] = args.words(["IN.vmx", "OUT.y4m"])?;
    let (depth, threads) = (args.depth()?, args.threads()?);
    let reader = file::Reader::new(open(input)?, input)?;
    let depth = depth.unwrap_or(reader.format.depth);
    let writer = y4m::Writer::new(create(output)?, output, &y4m::Format { depth, ..reader.format.clone() })?;
    let mut progress = Progress::new();
    let mut say = |line: &str, bytes: Option<usize>| match bytes {
        Some(n) => progress.frame(n),
        None => progress.say(line),
    };
    match depth {
        Depth::Eight => run::<u8, _, _>(reader, writer, threads, &mut say),
        Depth::Ten => run::<u16, _, _>(reader, writer, threads, &mut say),
    }
}

/// Reads all frames and writes what is shown after each. `say` gets lines of text, and each frame's length.
pub fn run<S: Sample, R: Read, W: Write>(
    mut reader: file::Reader<R>,
    mut writer: y4m::Writer<W>,
    threads: usize,
    say: &mut dyn FnMut(&str, Option<usize>),
) -> Result<Outcome, Fail> {
    let mut decoder = Decoder::<S>::new(reader.format.width, reader.format.height, false).map_err(|e| e.to_string())?;
    decoder.set_threads(threads);
    let (mut frames, mut refused_frames, mut refused_slices) = (0, 0, 0);
    // A file that is damaged between frames still leaves whole pictures behind.
    let ended = loop {
        let frame = match reader.next() {
            Ok(Next::End) => break Ok(()),
            Ok(Next::Frame(frame)) => frame,
            Ok(Next::Cut(frame)) => {
                say(&format!("frame {frames}: the file ends within it"), None);
                frame
            }
            Err(e) => break Err(e),
        };
        match decoder.decode(frame, frames as u64 + 1) {
            Ok(verdicts) => refused_slices += tell(&verdicts, decoder.times(), frames, say),
            Err(refused) => {
                refused_frames += 1;
                say(&whole(refused, frames, decoder.times()), None);
            }
        }
        say("", Some(frame.len()));
        writer.picture(decoder.shown(), decoder.interlaced())?;
        frames += 1;
    };
    writer.finish()?;
    ended?;
    if refused_frames + refused_slices == 0 {
        return Ok(Outcome::Done);
    }
    let (all, f, s) = (count(frames, "frame"), count(refused_frames, "frame"), count(refused_slices, "slice"));
    say(&format!("{all}; refused, and shown as before: {f} and {s}"), None);
    Ok(Outcome::Held)
}

/// A line for each refused slice; their number.
fn tell(verdicts: &[Verdict], times: &[u64], frame: usize, say: &mut dyn FnMut(&str, Option<usize>)) -> usize {
    let refused: Vec<_> = verdicts.iter().enumerate().filter_map(|(s, v)| v.err().map(|e| (s, e))).collect();
    for &(s, e) in refused.iter().take(LINES) {
        let rows = format!("rows {} to {}", 16 * s, 16 * s + 15);
        say(
            &format!("frame {frame}, slice {s} refused: {e}; its {rows} {}", shown(times[s]).replace("shows", "show")),
            None,
        );
    }
    if refused.len() > LINES {
        say(&format!("frame {frame}: {} more refused", count(refused.len() - LINES, "slice")), None);
    }
    refused.len()
}

fn whole(refused: Refused, frame: usize, times: &[u64]) -> String {
    let newest = times.iter().copied().max().unwrap_or(0);
    format!("frame {frame} refused: {refused}; the picture {}", shown(newest))
}
