//! The number of a refusal, as document 01 lists them.

use std::fmt;

/// Why a call was refused: the first of document 01's questions that was answered no. A refused call has changed no
/// sample and no byte, and its positions are where they were.
#[derive(Clone, Copy, Debug, PartialEq, Eq, Hash, PartialOrd, Ord)]
#[repr(u32)]
pub enum Refused {
    /// 1: preset 0 to 24?
    Preset = 1,
    /// 2: DC shift 0 to 15?
    DcShift = 2,
    /// 3: plane place 0 to 3, plane count 1 to 4?
    Plane = 3,
    /// 4: stride a multiple of 8 from 8 to 7,680?
    Stride = 4,
    /// 5: rows long enough?
    Rows = 5,
    /// 6: room behind the start for what is written?
    Room = 6,
    /// 7: starts at most 16,777,215, streams read at most 245,760 (DC) and 430,080 (AC) bytes?
    Start = 7,
    /// 8: at most 54 zeros in front of every code reached? A stream with more is broken.
    Code = 8,
    /// 9: width even, 16 to 7,680, height 16 to 4,320?
    Size = 9,
    /// 10: five bytes there, each length and stream whole?
    Bytes = 10,
    /// 11: first byte 1, 2 or 3?
    Format = 11,
    /// 12: slice count as the layout's, modulo 256?
    SliceCount = 12,
    /// 13: stream within its limit?
    Limit = 13,
    /// 14: slice number below the count, AC there when wanted, builder in turn?
    Turn = 14,
}

/// What a reading or coding call answers: accepted, or the reason why not.
pub type Verdict = Result<(), Refused>;

impl Refused {
    /// All reasons, in the order of their numbers.
    pub const ALL: [Refused; 14] = [
        Refused::Preset,
        Refused::DcShift,
        Refused::Plane,
        Refused::Stride,
        Refused::Rows,
        Refused::Room,
        Refused::Start,
        Refused::Code,
        Refused::Size,
        Refused::Bytes,
        Refused::Format,
        Refused::SliceCount,
        Refused::Limit,
        Refused::Turn,
    ];

    /// Document 01's number.
    ///
    /// ```
    /// use vmx::{Layout, Refused};
    /// assert_eq!(Layout::new(17, 32), Err(Refused::Size));
    /// assert_eq!(Refused::Size.number(), 9);
    /// ```
    pub fn number(self) -> u32 {
        self as u32
    }

    /// The reason with this number; none for 0 and for any other number that no question has.
    pub fn from_number(number: u32) -> Option<Refused> {
        Self::ALL.into_iter().find(|r| r.number() == number)
    }

    /// The question that was answered no, in document 01's words.
    pub fn question(self) -> &'static str {
        match self {
            Refused::Preset => "preset 0 to 24?",
            Refused::DcShift => "DC shift 0 to 15?",
            Refused::Plane => "plane place 0 to 3, plane count 1 to 4?",
            Refused::Stride => "stride a multiple of 8 from 8 to 7,680?",
            Refused::Rows => "rows long enough?",
            Refused::Room => "room behind the start for what is written?",
            Refused::Start => "starts at most 16,777,215, streams read at most 245,760 (DC) and 430,080 (AC) bytes?",
            Refused::Code => "at most 54 zeros in front of every code reached?",
            Refused::Size => "width even, 16 to 7,680, height 16 to 4,320?",
            Refused::Bytes => "five bytes there, each length and stream whole?",
            Refused::Format => "first byte 1, 2 or 3?",
            Refused::SliceCount => "slice count as the layout's?",
            Refused::Limit => "stream within its limit?",
            Refused::Turn => "slice number below the count, AC there when wanted, builder in turn?",
        }
    }
}

/// What is wrong, in words, then the number.
impl fmt::Display for Refused {
    fn fmt(&self, f: &mut fmt::Formatter) -> fmt::Result {
        let words = match self {
            Refused::Preset => "the preset is above 24",
            Refused::DcShift => "the DC shift is above 15",
            Refused::Plane => "the plane's place is above 3, or there are not 1 to 4 planes",
            Refused::Stride => "the stride is not a multiple of 8 from 8 to 7,680",
            Refused::Rows => "the rows are too short",
            Refused::Room => "there is no room for what is to be written",
            Refused::Start => "a start or a stream's length is above its limit",
            Refused::Code => "a bad code in the stream",
            Refused::Size => "the width is not even and 16 to 7,680, or the height not 16 to 4,320",
            Refused::Bytes => "the frame's bytes end too early",
            Refused::Format => "the frame's first byte is not 1, 2 or 3",
            Refused::SliceCount => "the frame's slice count is not that of its size",
            Refused::Limit => "a stream is longer than its limit",
            Refused::Turn => "there is no such slice, no AC stream, or it is not this stream's turn",
        };
        write!(f, "{words} ({})", self.number())
    }
}

impl std::error::Error for Refused {}

#[cfg(test)]
mod tests {
    use super::*;

    #[test]
    fn every_reason_is_found_by_its_number() {
        assert!(Refused::ALL.windows(2).all(|r| r[0].number() < r[1].number()), "in order, each once");
        for r in Refused::ALL {
            assert_eq!(Refused::from_number(r.number()), Some(r));
            assert!(r.question().ends_with('?'));
            assert!(r.to_string().ends_with(&format!("({})", r.number())));
        }
    }

    #[test]
    fn any_other_number_is_none() {
        let numbers = Refused::ALL.map(Refused::number);
        for n in (0..=1000).chain([u32::MAX - 1, u32::MAX]).filter(|n| !numbers.contains(n)) {
            assert_eq!(Refused::from_number(n), None, "{n}");
        }
        for n in [0, 15, u32::MAX] {
            assert_eq!(Refused::from_number(n), None, "{n}");
        }
    }

    #[test]
    fn the_c_header_has_the_same_numbers() {
        let header = include_str!("../../../include/vmx.h");
        let defined: Vec<u32> = header
            .lines()
            .filter_map(|line| line.strip_prefix("#define VMX_NO_"))
            .map(|rest| rest.split_whitespace().nth(1).and_then(|n| n.parse().ok()).expect("a number"))
            .collect();
        assert_eq!(defined, Refused::ALL.map(Refused::number));
    }
}
