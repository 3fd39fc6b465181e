//! Records of reads whose starts and lengths lie around question 7's limits.

use super::reads::{call, List, PREVIEW, REPORT, SLICE};
use super::record::Call;
use crate::calls::Buffers;
use crate::questions::{Settings, AC_READ_MAX, DC_READ_MAX, STARTS, START_MAX};

const SETTINGS: Settings = Settings { preset: 5, dc_shift: 2 };

/// Which streams are too long to be stored: none; ones as long as may be read; a byte more of DC, of AC.
const SHORT: u8 = 0;
const LONGEST: u8 = 1;
const LONG_DC: u8 = 2;
const LONG_AC: u8 = 3;

pub fn list(l: &mut List) {
    let (dc, ac) = (vec![0x13, 0x80], vec![0x80, 0x80]);
    for at in STARTS {
        let b = Buffers { dc: dc.clone(), dc_at: at, ac: ac.clone(), ac_at: 0 };
        both(l, SHORT, &b);
        preview(l, SHORT, &b);
        let b = Buffers { dc_at: 0, ac_at: at, ..b };
        both(l, SHORT, &b);
        report(l, SHORT, &b);
    }
    let ones = |dc: usize, ac: usize| Buffers { dc: vec![0xFF; dc], dc_at: 0, ac: vec![0xFF; ac], ac_at: 0 };
    // From the start, from a byte after it, and around the stream's end. The limits are about the whole stream.
    let starts = |n: usize| [0, 1, n - 1, n, n + 1, START_MAX];
    for (dc_at, ac_at) in starts(DC_READ_MAX).into_iter().zip(starts(AC_READ_MAX)) {
        let b = Buffers { dc_at, ac_at, ..ones(DC_READ_MAX, AC_READ_MAX) };
        assert_eq!(both(l, LONGEST, &b), [0; 4]);
        assert_eq!((preview(l, LONGEST, &b), report(l, LONGEST, &b)), (0, 0));
        let b = Buffers { dc_at, ..ones(DC_READ_MAX + 1, AC_READ_MAX) };
        assert_eq!((both(l, LONG_DC, &b), preview(l, LONG_DC, &b)), ([7; 4], 7));
        let b = Buffers { ac_at, ..ones(DC_READ_MAX, AC_READ_MAX + 1) };
        assert_eq!((both(l, LONG_AC, &b), report(l, LONG_AC, &b)), ([7; 4], 7));
    }
    // The stream that a call does not read may have any length.
    assert_eq!(preview(l, LONG_AC, &ones(DC_READ_MAX, AC_READ_MAX + 1)), 0);
    assert_eq!(report(l, LONG_DC, &ones(DC_READ_MAX + 1, AC_READ_MAX)), 0);
}

/// A plane and a slice of both depths.
fn both(l: &mut List, long: u8, b: &Buffers) -> [u32; 4] {
    let one = Call { long, ..call(0, SETTINGS, 0, 0x77, &[(8, 128)]) };
    let two = Call { long, ..call(SLICE, SETTINGS, 2, 0x77, &[(8, 128), (8, 128)]) };
    [
        l.put::<u8>(&one, b),
        l.put::<u16>(&Call { op: 1, ..one }, b),
        l.put::<u8>(&two, b),
        l.put::<u16>(&Call { op: SLICE + 1, ..two.clone() }, b),
    ]
}

fn preview(l: &mut List, long: u8, b: &Buffers) -> u32 {
    l.look(&Call { long, ..call(PREVIEW, SETTINGS, 0, 0x77, &[(8, 1), (0, 1)]) }, b)
}

fn report(l: &mut List, long: u8, b: &Buffers) -> u32 {
    l.look(&Call { long, ..call(REPORT, SETTINGS, 0, 0x77, &[(8, 2)]) }, b)
}
