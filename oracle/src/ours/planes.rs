//! The calls on planes and slices, through the library that programs link (include/vmx.h).

use crate::calls::{Buffers, Calls, Plane, PlaneCoder};
use crate::gen::planes::{Made, Rows};
use crate::gen::Rng;
use crate::questions::Settings;
use std::ptr::NonNull;

/// The declarations of one depth's calls.
#[rustfmt::skip]
macro_rules! calls {
    ($sample:ty, $code_plane:ident, $code_slice:ident, $read_plane:ident, $read_slice:ident) => {
        unsafe extern "C" {
            fn $code_plane(
                rows: *const $sample, n: usize, stride: usize, place: usize, preset: usize, shift: u32,
                dc: *mut u8, dn: usize, dc_at: &mut usize, ac: *mut u8, an: usize, ac_at: &mut usize,
            ) -> u32;
            fn $code_slice(
                p0: *const $sample, n0: usize, s0: usize, p1: *const $sample, n1: usize, s1: usize,
                p2: *const $sample, n2: usize, s2: usize, p3: *const $sample, n3: usize, s3: usize,
                count: usize, preset: usize, shift: u32,
                dc: *mut u8, dn: usize, dc_at: &mut usize, ac: *mut u8, an: usize, ac_at: &mut usize,
            ) -> u32;
            fn $read_plane(
                rows: *mut $sample, n: usize, stride: usize, place: usize, preset: usize, shift: u32,
                dc: *const u8, dn: usize, dc_at: &mut usize, ac: *const u8, an: usize, ac_at: &mut usize,
            ) -> u32;
            fn $read_slice(
                p0: *mut $sample, n0: usize, s0: usize, p1: *mut $sample, n1: usize, s1: usize,
                p2: *mut $sample, n2: usize, s2: usize, p3: *mut $sample, n3: usize, s3: usize,
                count: usize, preset: usize, shift: u32,
                dc: *const u8, dn: usize, dc_at: &mut usize, ac: *const u8, an: usize, ac_at: &mut usize,
            ) -> u32;
        }
    };
}

calls!(u8, vmx_encode_plane8, vmx_encode_slice8, vmx_decode_plane8, vmx_decode_slice8);
calls!(u16, vmx_encode_plane10, vmx_encode_slice10, vmx_decode_plane10, vmx_decode_slice10);

#[rustfmt::skip]
unsafe extern "C" {
    fn vmx_preview(
        shift: u32, place: usize, stride: usize, upper: *mut u8, un: usize, lower: *mut u8, ln: usize,
        dc: *const u8, dn: usize, dc_at: &mut usize,
    ) -> u32;
    fn vmx_block_report(stride: usize, report: *mut u8, n: usize, ac: *const u8, an: usize, ac_at: &mut usize) -> u32;
    safe fn vmx_plane_size(stride: usize, dc: &mut usize, ac: &mut usize) -> u32;
    safe fn vmx_slice_size(
        count: usize, s0: usize, s1: usize, s2: usize, s3: usize, dc: &mut usize, ac: &mut usize,
    ) -> u32;
}

/// Our static library. With guards, what is lent to be written lies between samples or bytes that must stay.
#[derive(Clone, Copy)]
pub struct Ours {
    pub guards: bool,
}

pub const OURS: Ours = Ours { guards: false };
pub const GUARDED: Ours = Ours { guards: true };

/// Lengths of the size call for one plane, or the refusal's number.
pub fn plane_size(stride: usize) -> Result<(usize, usize), u32> {
    sized(|dc, ac| vmx_plane_size(stride, dc, ac))
}

/// The same for the first `count` of four planes.
pub fn slice_size(count: usize, s: [usize; 4]) -> Result<(usize, usize), u32> {
    sized(|dc, ac| vmx_slice_size(count, s[0], s[1], s[2], s[3], dc, ac))
}

fn sized(call: impl FnOnce(&mut usize, &mut usize) -> u32) -> Result<(usize, usize), u32> {
    let (mut dc, mut ac) = (7, 7);
    match call(&mut dc, &mut ac) {
        0 => Ok((dc, ac)),
        number => {
            assert_eq!((dc, ac), (7, 7), "a refused size call stores nothing");
            Err(number)
        }
    }
}

/// How many samples or bytes stand guard on each side.
const GUARD: usize = 64;

/// Memory lent to be written, if asked for between guards.
struct Lent<'a, T: Made> {
    own: &'a mut [T],
    copy: Vec<T>,
}

impl<'a, T: Made> Lent<'a, T> {
    fn new(own: &'a mut [T], guards: bool) -> Self {
        let mut copy = vec![];
        if guards {
            copy.extend(Self::guard());
            copy.extend_from_slice(own);
            copy.extend(Self::guard());
        }
        Lent { own, copy }
    }

    fn guard() -> Vec<T> {
        let mut rng = Rng::new(GUARD as u64);
        (0..GUARD).map(|_| T::any(&mut rng)).collect()
    }

    fn at(&mut self) -> *mut T {
        if self.copy.is_empty() {
            self.own.as_mut_ptr()
        } else {
            self.copy[GUARD..].as_mut_ptr()
        }
    }

    fn back(self) {
        if let Some((before, rest)) = self.copy.split_at_checked(GUARD) {
            let (lent, after) = rest.split_at(self.own.len());
            assert!(before == Self::guard() && after == Self::guard(), "a call wrote outside what it was lent");
            self.own.copy_from_slice(lent);
        }
    }
}

/// Where rows lie, how many samples they are, and the stride; planes that are not there have none.
type Place<T> = (*mut T, usize, usize);

fn places<T: Made>(found: impl Iterator<Item = Place<T>>) -> [Place<T>; 4] {
    let mut all = [(NonNull::dangling().as_ptr(), 0, 0); 4];
    all.iter_mut().zip(found).for_each(|(a, f)| *a = f);
    all
}

/// A call with four planes in front of its other arguments.
macro_rules! over_four {
    ($f:ident($planes:ident, $($rest:expr),*)) => {{
        let [(p0, n0, s0), (p1, n1, s1), (p2, n2, s2), (p3, n3, s3)] = $planes;
        $f(p0.cast(), n0, s0, p1.cast(), n1, s1, p2.cast(), n2, s2, p3.cast(), n3, s3, $($rest),*)
    }};
}

impl Ours {
    /// Codes the first `count` planes, whatever that number is.
    pub fn code_counted<T: Made>(&self, s: Settings, count: usize, planes: &[Plane<T>], b: &mut Buffers) -> u32 {
        let (mut dc, mut ac) = (Lent::new(&mut b.dc, self.guards), Lent::new(&mut b.ac, self.guards));
        let (d, dn, a, an) = (dc.at(), dc.own.len(), ac.at(), ac.own.len());
        let (d_at, a_at) = (&mut b.dc_at, &mut b.ac_at);
        let planes = places(planes.iter().map(|(_, stride, rows)| (rows.as_ptr() as *mut T, rows.len(), *stride)));
        // SAFETY: rows with their own lengths (0 for a plane that is not there), which are only read, of the type
        // that the call takes; both outputs with their own lengths, apart from each other.
        let number = unsafe {
            match T::rows(&[]) {
                Rows::Eight(_) => {
                    over_four!(vmx_encode_slice8(planes, count, s.preset, s.dc_shift, d, dn, d_at, a, an, a_at))
                }
                Rows::Ten(_) => {
                    over_four!(vmx_encode_slice10(planes, count, s.preset, s.dc_shift, d, dn, d_at, a, an, a_at))
                }
            }
        };
        dc.back();
        ac.back();
        number
    }

    /// Reads the first `count` planes, whatever that number is.
    pub fn read_counted<T: Made>(&self, s: Settings, count: usize, planes: &mut [Plane<T>], b: &mut Buffers) -> u32 {
        let (d, dn, a, an) = (b.dc.as_ptr(), b.dc.len(), b.ac.as_ptr(), b.ac.len());
        let (d_at, a_at) = (&mut b.dc_at, &mut b.ac_at);
        let mut lent: Vec<(Lent<T>, usize)> =
            planes.iter_mut().map(|p| (Lent::new(&mut p.2, self.guards), p.1)).collect();
        let planes = places(lent.iter_mut().map(|(l, stride)| (l.at(), l.own.len(), *stride)));
        // SAFETY: rows with their own lengths (0 for a plane that is not there), each apart from all else, of the
        // type that the call takes; both streams with their own lengths.
        let number = unsafe {
            match T::rows(&[]) {
                Rows::Eight(_) => {
                    over_four!(vmx_decode_slice8(planes, count, s.preset, s.dc_shift, d, dn, d_at, a, an, a_at))
                }
                Rows::Ten(_) => {
                    over_four!(vmx_decode_slice10(planes, count, s.preset, s.dc_shift, d, dn, d_at, a, an, a_at))
                }
            }
        };
        lent.into_iter().for_each(|(l, _)| l.back());
        number
    }
}

impl PlaneCoder for Ours {
    fn name(&self) -> &'static str {
        "ours"
    }

    fn code_plane<T: Made>(&self, s: Settings, (place, stride, rows): &Plane<T>, b: &mut Buffers) -> u32 {
        let (mut dc, mut ac) = (Lent::new(&mut b.dc, self.guards), Lent::new(&mut b.ac, self.guards));
        let (d, dn, a, an) = (dc.at(), dc.own.len(), ac.at(), ac.own.len());
        let (place, stride, n) = (*place, *stride, rows.len());
        let (d_at, a_at) = (&mut b.dc_at, &mut b.ac_at);
        // SAFETY: rows with their own length, which are only read; both outputs with their own lengths, apart from each
        // other.
        let number = unsafe {
            match T::rows(rows) {
                Rows::Eight(r) => {
                    vmx_encode_plane8(r.as_ptr(), n, stride, place, s.preset, s.dc_shift, d, dn, d_at, a, an, a_at)
                }
                Rows::Ten(r) => {
                    vmx_encode_plane10(r.as_ptr(), n, stride, place, s.preset, s.dc_shift, d, dn, d_at, a, an, a_at)
                }
            }
        };
        dc.back();
        ac.back();
        number
    }
}

impl Calls for Ours {
    fn code_slice<T: Made>(&self, s: Settings, planes: &[Plane<T>], b: &mut Buffers) -> u32 {
        self.code_counted(s, planes.len(), planes, b)
    }

    fn read_plane<T: Made>(&self, s: Settings, (place, stride, rows): &mut Plane<T>, b: &mut Buffers) -> u32 {
        let (d, dn, a, an) = (b.dc.as_ptr(), b.dc.len(), b.ac.as_ptr(), b.ac.len());
        let (place, stride, n) = (*place, *stride, rows.len());
        let (d_at, a_at) = (&mut b.dc_at, &mut b.ac_at);
        let mut lent = Lent::new(rows, self.guards);
        let r = lent.at();
        // SAFETY: rows with their own length, of the type that the call takes; both streams with their own lengths.
        let number = unsafe {
            match T::rows(&[]) {
                Rows::Eight(_) => {
                    vmx_decode_plane8(r.cast(), n, stride, place, s.preset, s.dc_shift, d, dn, d_at, a, an, a_at)
                }
                Rows::Ten(_) => {
                    vmx_decode_plane10(r.cast(), n, stride, place, s.preset, s.dc_shift, d, dn, d_at, a, an, a_at)
                }
            }
        };
        lent.back();
        number
    }

    fn read_slice<T: Made>(&self, s: Settings, planes: &mut [Plane<T>], b: &mut Buffers) -> u32 {
        self.read_counted(s, planes.len(), planes, b)
    }

    fn preview(&self, dc_shift: u32, place: usize, stride: usize, out: [&mut [u8]; 2], b: &mut Buffers) -> u32 {
        let [x, y] = out.map(|o| Lent::new(o, self.guards));
        let (mut x, mut y) = (x, y);
        let (u, un, l, ln) = (x.at(), x.own.len(), y.at(), y.own.len());
        // SAFETY: two outputs and a stream with their own lengths, each apart from the others.
        let number =
            unsafe { vmx_preview(dc_shift, place, stride, u, un, l, ln, b.dc.as_ptr(), b.dc.len(), &mut b.dc_at) };
        x.back();
        y.back();
        number
    }

    fn block_report(&self, stride: usize, out: &mut [u8], b: &mut Buffers) -> u32 {
        let mut out = Lent::new(out, self.guards);
        let (o, n, at) = (out.at(), out.own.len(), &mut b.ac_at);
        // SAFETY: output and stream with their own lengths, apart from each other.
        let number = unsafe { vmx_block_report(stride, o, n, b.ac.as_ptr(), b.ac.len(), at) };
        out.back();
        number
    }
}
