//! The calls that users make on planes and slices, as document 01 describes
//! them; whoever answers them is compared. `Rust` answers with the published
//! functions, which put no questions: it puts document 01's questions first and
//! stores nothing where a code is bad.

use crate::gen::planes::Made;
use crate::questions::{self, Settings, Shape, NO_CODE};
use reference::api::bits::{AcSymbol, Cursor};
use reference::api::tables::{quant, Quant, PRESETS};
use reference::api::{slice, Path};

/// Both streams that are written, and the positions, which move where a call is accepted.
#[derive(Clone, Debug, PartialEq, Eq)]
pub struct Buffers {
    pub dc: Vec<u8>,
    pub dc_at: usize,
    pub ac: Vec<u8>,
    pub ac_at: usize,
}

/// A plane: place, stride, rows.
pub type Plane<T> = (usize, usize, Vec<T>);

/// Each call's answer is document 01's number, 0 where it is accepted.
pub trait PlaneCoder {
    fn name(&self) -> &'static str;
    fn code_plane<T: Made>(&self, s: Settings, plane: &Plane<T>, b: &mut Buffers) -> u32;
}

/// The other calls on planes and slices.
pub trait Calls: PlaneCoder {
    /// A slice of `planes.len()` planes; their places are their indices.
    fn code_slice<T: Made>(&self, s: Settings, planes: &[Plane<T>], b: &mut Buffers) -> u32;
    fn read_plane<T: Made>(&self, s: Settings, plane: &mut Plane<T>, b: &mut Buffers) -> u32;
    fn read_slice<T: Made>(&self, s: Settings, planes: &mut [Plane<T>], b: &mut Buffers) -> u32;
    /// Two output rows out of the DC stream.
    fn preview(&self, dc_shift: u32, place: usize, stride: usize, out: [&mut [u8]; 2], b: &mut Buffers) -> u32;
    /// Flat blocks out of the AC stream.
    fn block_report(&self, stride: usize, out: &mut [u8], b: &mut Buffers) -> u32;
}

/// The published functions on one of their paths.
pub struct Rust {
    path: Path,
    quants: Vec<Quant>,
}

impl Rust {
    pub fn new(path: Path) -> Self {
        Rust { path, quants: (0..PRESETS).map(quant).collect() }
    }

    /// A plane's own streams.
    pub fn streams<T: Made>(&self, s: Settings, (place, stride, rows): &Plane<T>) -> (Vec<u8>, Vec<u8>) {
        let q = &self.quants[s.preset].encode;
        slice::encode_plane(self.path, &rows[..16 * stride], *stride, *place, q, s.dc_shift)
    }

    /// A plane read at positions: the ends, or nothing at a bad code.
    pub fn rows<T: Made>(
        &self,
        s: Settings,
        plane: &mut Plane<T>,
        b: &Buffers,
        at: (usize, usize),
    ) -> Option<(usize, usize)> {
        let (place, stride, rows) = plane;
        let q = &self.quants[s.preset].decode;
        let (dc, ac) = ((&b.dc[..], at.0), (&b.ac[..], at.1));
        slice::decode_plane(self.path, &mut rows[..16 * *stride], *stride, *place, q, s.dc_shift, dc, ac)
    }

    /// The published preview alone, into the rows themselves: for timing.
    pub fn preview_in_place(
        &self,
        dc_shift: u32,
        place: usize,
        stride: usize,
        out: [&mut [u8]; 2],
        b: &mut Buffers,
    ) -> u32 {
        let [x, y] = out;
        match slice::decode_plane_preview(x, y, stride, place, dc_shift, (&b.dc, b.dc_at)) {
            None => NO_CODE,
            Some(end) => {
                b.dc_at = end;
                0
            }
        }
    }

    /// Whether the Rust's own slice functions agree with its planes in a row.
    pub fn same_slice<T: Made>(&self, s: Settings, planes: &[Plane<T>], dc: &[u8], ac: &[u8]) -> bool {
        let set: Vec<(usize, Vec<T>)> = planes.iter().map(|p| (p.1, p.2.clone())).collect();
        slice::encode_one_slice(&set, &self.quants[s.preset].encode, s.dc_shift) == (dc.to_vec(), ac.to_vec())
    }

    /// The Rust's own slice function: the rows that it leaves, and whether it found no bad code.
    pub fn slice_rows<T: Made>(&self, s: Settings, planes: &[Plane<T>], b: &Buffers) -> (bool, Vec<Vec<T>>) {
        let mut set: Vec<(usize, Vec<T>)> = planes.iter().map(|p| (p.1, p.2.clone())).collect();
        let (dc, ac) = (b.dc.get(b.dc_at..).unwrap_or(&[]), b.ac.get(b.ac_at..).unwrap_or(&[]));
        let ok = slice::decode_one_slice(&mut set, dc, ac, &self.quants[s.preset].decode, s.dc_shift);
        (ok, set.into_iter().map(|p| p.1).collect())
    }
}

fn shapes<T>(planes: &[Plane<T>]) -> Vec<Shape> {
    planes.iter().map(|(place, stride, rows)| Shape { place: *place, stride: *stride, len: rows.len() }).collect()
}

/// The number of a coding call on these planes.
pub fn coding_number<T>(s: Settings, planes: &[Plane<T>], b: &Buffers) -> u32 {
    questions::coding(s, &shapes(planes), (b.dc.len(), b.dc_at), (b.ac.len(), b.ac_at))
}

/// The number of a reading call on these planes, before question 8.
pub fn reading_number<T>(s: Settings, planes: &[Plane<T>], b: &Buffers) -> u32 {
    questions::reading(s, &shapes(planes), (b.dc.len(), b.dc_at), (b.ac.len(), b.ac_at))
}

impl PlaneCoder for Rust {
    fn name(&self) -> &'static str {
        match self.path {
            Path::Sse2 => "the Rust on SSE2",
            Path::Portable => "the Rust's portable path",
        }
    }

    fn code_plane<T: Made>(&self, s: Settings, plane: &Plane<T>, b: &mut Buffers) -> u32 {
        self.code_slice(s, std::slice::from_ref(plane), b)
    }
}

impl Calls for Rust {
    fn code_slice<T: Made>(&self, s: Settings, planes: &[Plane<T>], b: &mut Buffers) -> u32 {
        let number = coding_number(s, planes, b);
        if number > 0 {
            return number;
        }
        for plane in planes {
            let (dc, ac) = self.streams(s, plane);
            b.dc[b.dc_at..b.dc_at + dc.len()].copy_from_slice(&dc);
            b.ac[b.ac_at..b.ac_at + ac.len()].copy_from_slice(&ac);
            b.dc_at += dc.len();
            b.ac_at += ac.len();
        }
        0
    }

    fn read_plane<T: Made>(&self, s: Settings, plane: &mut Plane<T>, b: &mut Buffers) -> u32 {
        self.read_slice(s, std::slice::from_mut(plane), b)
    }

    fn read_slice<T: Made>(&self, s: Settings, planes: &mut [Plane<T>], b: &mut Buffers) -> u32 {
        let number = reading_number(s, planes, b);
        if number > 0 {
            return number;
        }
        let mut made = planes.to_vec();
        let mut at = (b.dc_at, b.ac_at);
        for plane in &mut made {
            match self.rows(s, plane, b, at) {
                Some(ends) => at = ends,
                None => return NO_CODE,
            }
        }
        planes.clone_from_slice(&made);
        (b.dc_at, b.ac_at) = at;
        0
    }

    fn preview(&self, dc_shift: u32, place: usize, stride: usize, out: [&mut [u8]; 2], b: &mut Buffers) -> u32 {
        let [x, y] = out;
        let number = questions::preview(dc_shift, place, stride, (x.len(), y.len()), (b.dc.len(), b.dc_at));
        if number > 0 {
            return number;
        }
        let (mut p, mut q) = (x.to_vec(), y.to_vec());
        match slice::decode_plane_preview(&mut p, &mut q, stride, place, dc_shift, (&b.dc, b.dc_at)) {
            None => NO_CODE,
            Some(end) => {
                x.copy_from_slice(&p);
                y.copy_from_slice(&q);
                b.dc_at = end;
                0
            }
        }
    }

    /// The Rust has no report: document 01's rule (a block is flat when no AC symbol was read for it) over its cursor.
    fn block_report(&self, stride: usize, out: &mut [u8], b: &mut Buffers) -> u32 {
        let number = questions::report(stride, out.len(), (b.ac.len(), b.ac_at));
        if number > 0 {
            return number;
        }
        let mut cursor = Cursor::new(&b.ac, 8 * b.ac_at);
        let mut pending = 0u64;
        let mut flat = vec![];
        for _ in 0..stride / 4 {
            flat.push((pending >= 64) as u8);
            while pending < 64 {
                pending += match cursor.symbol() {
                    Some(AcSymbol::Run(n)) => n,
                    Some(AcSymbol::Value(_)) => 1,
                    None => return NO_CODE,
                };
            }
            pending -= 64;
        }
        out[..flat.len()].copy_from_slice(&flat);
        b.ac_at = cursor.bit_pos().div_ceil(8);
        0
    }
}
