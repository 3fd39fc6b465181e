//! A .vmx file: one header line, then frames, each after its length in 32 bits, low byte first. README.md has the
//! format.

use std::io::{Read, Write};

use vmx::{Depth, Layout};

use crate::fail::{about, Fail};
use crate::streams::{read_line, read_up_to};
use crate::words::grouped;
use crate::y4m::Format;

const MAGIC: &str = "VMX1";
const LONGEST_LINE: usize = 1024;

fn header(line: &str) -> Result<Format, String> {
    let mut fields = line.split(' ');
    if fields.next() != Some(MAGIC) {
        return Err(format!("it is no .vmx file: it does not begin with {MAGIC}"));
    }
    let mut format = Format::new(0, 0, Depth::Eight);
    for field in fields {
        match field {
            "D8" => format.depth = Depth::Eight,
            "D10" => format.depth = Depth::Ten,
            _ if format.take(field)? => {}
            _ => return Err(format!("'{field}' in its header is not known")),
        }
    }
    format.layout()?;
    Ok(format)
}

pub struct Reader<R> {
    input: R,
    name: String,
    pub format: Format,
    pub layout: Layout,
    frame: Vec<u8>,
}

/// What comes next in a file.
pub enum Next<'a> {
    Frame(&'a [u8]),
    /// The file ends within this frame; what is there of it.
    Cut(&'a [u8]),
    End,
}

impl<R: Read> Reader<R> {
    pub fn new(mut input: R, name: &str) -> Result<Self, Fail> {
        let says = |e: String| Fail::Failed(format!("{name}: {e}"));
        let line = read_line(&mut input, LONGEST_LINE).map_err(says)?.ok_or_else(|| says("it is empty".into()))?;
        let format = header(&line).map_err(says)?;
        let layout = format.layout().map_err(says)?;
        Ok(Reader { input, name: name.into(), format, layout, frame: Vec::new() })
    }

    /// Fails where a length is more than a frame of this size can have: what follows cannot be found then.
    pub fn next(&mut self) -> Result<Next<'_>, Fail> {
        let mut word = [0; 4];
        match about(&self.name, read_up_to(&mut self.input, &mut word))? {
            0 => return Ok(Next::End),
            4 => {}
            _ => return Ok(Next::Cut(&[])),
        }
        let len = u32::from_le_bytes(word) as usize;
        let most = self.layout.max_frame_len();
        if len > most {
            return Err(Fail::Failed(format!(
                "{}: the file is damaged: a frame's length is given as {} bytes, and frames of this size have at most {}",
                self.name,
                grouped(len),
                grouped(most)
            )));
        }
        self.frame.resize(len, 0);
        let there = about(&self.name, read_up_to(&mut self.input, &mut self.frame))?;
        Ok(if there == len { Next::Frame(&self.frame) } else { Next::Cut(&self.frame[..there]) })
    }
}

pub struct Writer<W> {
    output: W,
    name: String,
}

impl<W: Write> Writer<W> {
    pub fn new(mut output: W, name: &str, format: &Format) -> Result<Self, Fail> {
        about(name, writeln!(output, "{MAGIC} D{} {}", format.depth.bits(), format.common()))?;
        Ok(Writer { output, name: name.into() })
    }

    pub fn frame(&mut self, frame: &[u8]) -> Result<(), Fail> {
        let len = u32::try_from(frame.len()).map_err(|_| Fail::Failed("a frame of 4 GiB or more".into()))?;
        about(&self.name, self.output.write_all(&len.to_le_bytes()).and_then(|()| self.output.write_all(frame)))
    }

    pub fn finish(mut self) -> Result<(), Fail> {
        about(&self.name, self.output.flush())
    }
}

#[cfg(test)]
mod tests {
    use super::*;

    #[test]
    fn what_is_written_is_read() {
        let mut format = Format::new(64, 32, Depth::Ten);
        format.fields = "b".into();
        let mut bytes = Vec::new();
        let mut writer = Writer::new(&mut bytes, "memory", &format).unwrap();
        for frame in [&[1, 2, 3][..], &[]] {
            writer.frame(frame).unwrap();
        }
        writer.finish().unwrap();
        assert!(bytes.starts_with(b"VMX1 D10 W64 H32 F25:1 Ib A1:1\n\x03\0\0\0\x01\x02\x03"));
        let mut reader = Reader::new(&bytes[..], "memory").unwrap();
        assert_eq!(reader.format, format);
        assert!(matches!(reader.next().unwrap(), Next::Frame([1, 2, 3])));
        assert!(matches!(reader.next().unwrap(), Next::Frame([])));
        assert!(matches!(reader.next().unwrap(), Next::End));
    }

    #[test]
    fn damage() {
        let line = "VMX1 D8 W64 H32 F25:1 Ip A1:1\n";
        let read = |tail: &[u8]| {
            Reader::new(&[line.as_bytes(), tail].concat()[..], "x").unwrap().next().map(|n| match n {
                Next::Frame(f) => (1, f.len()),
                Next::Cut(f) => (2, f.len()),
                Next::End => (3, 0),
            })
        };
        assert_eq!(read(&[2, 0, 0, 0, 9]).unwrap(), (2, 1));
        assert_eq!(read(&[2, 0]).unwrap(), (2, 0));
        assert!(matches!(read(&[0, 0, 0, 9]), Err(Fail::Failed(e)) if e.contains("damaged")));
        for line in ["", "VMX1 D9 W64 H32\n", "VMX1 W64\n", "VMX2 W64 H32\n", "VMX1 W64 H32", "VMX1 W64 H32 Zx\n"] {
            assert!(Reader::new(line.as_bytes(), "x").is_err(), "{line}");
        }
    }
}
