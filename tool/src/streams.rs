//! Files, or standard input and output for '-'.

use std::fs::File;
use std::io::{self, BufReader, BufWriter, Read, Write};

use crate::fail::{about, Fail};

const CHUNK: usize = 1 << 20;

pub fn open(name: &str) -> Result<Box<dyn Read>, Fail> {
    if name == "-" {
        return Ok(Box::new(BufReader::with_capacity(CHUNK, io::stdin().lock())));
    }
    Ok(Box::new(BufReader::with_capacity(CHUNK, about(name, File::open(name))?)))
}

pub fn create(name: &str) -> Result<Box<dyn Write>, Fail> {
    if name == "-" {
        return Ok(Box::new(BufWriter::with_capacity(CHUNK, io::stdout().lock())));
    }
    Ok(Box::new(BufWriter::with_capacity(CHUNK, about(name, File::create(name))?)))
}

/// Fills the buffer as far as the input goes; the number of bytes.
pub fn read_up_to(input: &mut impl Read, buffer: &mut [u8]) -> io::Result<usize> {
    let mut filled = 0;
    while filled < buffer.len() {
        match input.read(&mut buffer[filled..]) {
            Ok(0) => break,
            Ok(n) => filled += n,
            Err(e) if e.kind() == io::ErrorKind::Interrupted => {}
            Err(e) => return Err(e),
        }
    }
    Ok(filled)
}

/// A line of at most `most` bytes without its end; nothing at the input's end. The error says what is wrong.
pub fn read_line(input: &mut impl Read, most: usize) -> Result<Option<String>, String> {
    let mut line = Vec::new();
    let mut byte = [0];
    loop {
        match read_up_to(input, &mut byte).map_err(|e| e.to_string())? {
            0 if line.is_empty() => return Ok(None),
            0 => return Err("its line has no end".into()),
            _ if byte[0] == b'\n' => break,
            _ if line.len() == most => return Err(format!("its line is longer than {most} bytes")),
            _ => line.push(byte[0]),
        }
    }
    String::from_utf8(line).map(Some).map_err(|_| "its line is no text".into())
}
