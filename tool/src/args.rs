//! The command line.

use std::collections::BTreeMap;
use std::str::FromStr;

use vmx::Depth;

use crate::fail::Fail;

pub const HELP: &str = "\
vmx: codes Y4M video (4:2:2, 8 or 10 bit) as VMX frames and reads it back

  vmx encode  IN.y4m OUT.vmx   code every frame
  vmx decode  IN.vmx OUT.y4m   read every frame; a refused slice shows what was
                               there before
  vmx preview IN.vmx OUT.y4m   the 1/8 size preview
  vmx info    IN.vmx           headers, stream lengths, verdict of each slice

  --quality Q    encode: 36 (smallest) to 99 (finest); 90 if not given
  --dc-shift S   encode: DC precision, 0 (full) to 15; 0 if not given
  --depth D      8 or 10: code or read at this depth, whatever the input's is
  --threads N    all cores if not given; the result is the same
  --brief        info: one line a frame, no slices

'-' is standard input or output. To get Y4M in 4:2:2 from any video:
  ffmpeg -i IN -pix_fmt yuv422p -f yuv4mpegpipe - | vmx encode - OUT.vmx

Status: 0 done, 1 failed, 2 wrong command line, 3 done with parts refused.
More: source OUT.y4m, compare A.y4m B.y4m, demo FOLDER, fuzz N SEED (README.md)
";

/// Options that stand alone; all others have a value.
const SWITCHES: [&str; 1] = ["--brief"];

/// Words and options of one command.
#[derive(Debug)]
pub struct Args {
    words: Vec<String>,
    options: BTreeMap<String, String>,
}

impl Args {
    /// Sorts words from options; `known` are the options that the command has.
    pub fn parse(rest: &[String], known: &[&str]) -> Result<Args, Fail> {
        let mut args = Args { words: Vec::new(), options: BTreeMap::new() };
        let mut rest = rest.iter();
        while let Some(word) = rest.next() {
            if word == "-" || !word.starts_with('-') {
                args.words.push(word.clone());
                continue;
            }
            let (name, joined) = match word.split_once('=') {
                Some((name, value)) => (name, Some(value.to_string())),
                None => (&word[..], None),
            };
            if !known.contains(&name) {
                return Err(Fail::Usage(format!("this command has no option '{name}'")));
            }
            let value = match (SWITCHES.contains(&name), joined) {
                (true, None) => String::new(),
                (true, Some(_)) => return Err(Fail::Usage(format!("{name} has no value"))),
                (false, Some(value)) => value,
                (false, None) => match rest.next() {
                    Some(value) => value.clone(),
                    None => return Err(Fail::Usage(format!("{name} needs a value"))),
                },
            };
            if args.options.insert(name.to_string(), value).is_some() {
                return Err(Fail::Usage(format!("{name} is given twice")));
            }
        }
        Ok(args)
    }

    /// All words, which must be as many as named.
    pub fn words<const N: usize>(&self, names: [&str; N]) -> Result<[&str; N], Fail> {
        let words: Vec<&str> = self.words.iter().map(String::as_str).collect();
        words.try_into().map_err(|_| Fail::Usage(format!("this command takes {}", names.join(" "))))
    }

    pub fn has(&self, name: &str) -> bool {
        self.options.contains_key(name)
    }

    /// A number in a range, if the option is given.
    pub fn number<T: FromStr + PartialOrd + std::fmt::Display>(
        &self,
        name: &str,
        least: T,
        most: T,
    ) -> Result<Option<T>, Fail> {
        let Some(text) = self.options.get(name) else { return Ok(None) };
        match text.parse() {
            Ok(n) if n >= least && n <= most => Ok(Some(n)),
            _ => Err(Fail::Usage(format!("{name} is a number from {least} to {most}, not '{text}'"))),
        }
    }

    pub fn depth(&self) -> Result<Option<Depth>, Fail> {
        match self.options.get("--depth").map(String::as_str) {
            None => Ok(None),
            Some("8") => Ok(Some(Depth::Eight)),
            Some("10") => Ok(Some(Depth::Ten)),
            Some(other) => Err(Fail::Usage(format!("--depth is 8 or 10, not '{other}'"))),
        }
    }

    pub fn threads(&self) -> Result<usize, Fail> {
        Ok(self.number("--threads", 1, 1024)?.unwrap_or_else(vmx::all_cores))
    }
}

#[cfg(test)]
mod tests {
    use super::*;

    fn parse(words: &[&str]) -> Result<Args, Fail> {
        let words: Vec<String> = words.iter().map(|w| w.to_string()).collect();
        Args::parse(&words, &["--quality", "--brief", "--depth"])
    }

    #[test]
    fn help_fits_a_screen() {
        assert!(HELP.lines().count() <= 24, "{} lines", HELP.lines().count());
        assert!(HELP.lines().all(|l| l.len() <= 80));
    }

    #[test]
    fn words_and_options() {
        let args = parse(&["in", "--quality", "80", "-", "--brief", "--depth=10"]).unwrap();
        assert_eq!(args.words(["IN", "OUT"]).unwrap(), ["in", "-"]);
        assert_eq!(args.number("--quality", 36, 99).unwrap(), Some(80));
        assert_eq!(args.depth().unwrap(), Some(Depth::Ten));
        assert!(args.has("--brief"));
        assert!(args.words(["IN"]).is_err());
        assert!(args.number("--quality", 81, 99).is_err());
    }

    #[test]
    fn mistakes() {
        for words in [&["--what"][..], &["--quality"], &["--quality", "1", "--quality", "2"], &["--brief=x"]] {
            assert!(matches!(parse(words), Err(Fail::Usage(_))), "{words:?}");
        }
        assert!(parse(&["--quality", "many"]).unwrap().number("--quality", 36, 99).is_err());
        assert!(parse(&["--depth", "9"]).unwrap().depth().is_err());
    }
}
