//! vmx preview

use std::io::{Read, Write};

use vmx::{Depth, Preview};

use crate::args::Args;
use crate::fail::{Fail, Outcome};
use crate::file::Next;
use crate::progress::Progress;
use crate::streams::{create, open};
use crate::words::count;
use crate::{file, y4m};

pub fn command(args: &Args) -> Result<Outcome, Fail> {
    let [input, output] = args.words(["IN.vmx", "OUT.y4m"])?;
    let reader = file::Reader::new(open(input)?, input)?;
    let mut progress = Progress::new();
    run(reader, create(output)?, output, &mut |line| progress.say(line))
}

pub fn run<R: Read, W: Write>(
    mut reader: file::Reader<R>,
    output: W,
    name: &str,
    say: &mut dyn FnMut(&str),
) -> Result<Outcome, Fail> {
    // Fields may make the preview a row lower; one header stands for all frames.
    let fields = reader.format.interlaced() && reader.layout.interlace_capable();
    let (width, height) = reader.layout.preview_size(fields);
    let format = y4m::Format { width, height, depth: Depth::Eight, ..reader.format.clone() };
    let mut preview = Preview::new(reader.format.width, reader.format.height, false).map_err(|e| e.to_string())?;
    let mut writer = y4m::Writer::new(output, name, &format)?;
    let (mut frames, mut held) = (0, false);
    let ended = loop {
        let frame = match reader.next() {
            Ok(Next::End) => break Ok(()),
            Ok(Next::Frame(frame) | Next::Cut(frame)) => frame,
            Err(e) => break Err(e),
        };
        match preview.decode(frame) {
            Ok(verdicts) => {
                let refused = verdicts.iter().filter(|v| v.is_err()).count();
                if refused > 0 {
                    held = true;
                    say(&format!("frame {frames}: {} refused, shown as before", count(refused, "slice")));
                }
            }
            Err(e) => {
                held = true;
                say(&format!("frame {frames} refused: {e}; shown as before"));
            }
        }
        let last = preview.size().1 - 1;
        writer.frame(height, |p, y| preview.row(p, y.min(last)))?;
        frames += 1;
    };
    writer.finish()?;
    ended?;
    Ok(if held { Outcome::Held } else { Outcome::Done })
}
