//! The plane and slice calls: document 01's entries, every refusal, and that a refusal changes nothing.

mod common;

use common::Random;
use vmx::*;

/// Room for a plane of stride 8, with guard bytes before and after it.
const GUARD: usize = 5;

fn buffers(stride: usize) -> (Vec<u8>, Vec<u8>) {
    let size = plane_size(stride).unwrap();
    (vec![0xAA; size.dc + 2 * GUARD], vec![0xAA; size.ac + 2 * GUARD])
}

/// The two streams of a plane.
fn coded<S: Sample>(rows: &[S], stride: usize, place: usize, preset: usize, dc_shift: u32) -> (Vec<u8>, Vec<u8>) {
    let (mut dc, mut ac) = buffers(stride);
    let (mut d, mut a) = (StreamWriter::at(&mut dc, GUARD), StreamWriter::at(&mut ac, GUARD));
    encode_plane(rows, stride, place, preset, dc_shift, &mut d, &mut a).unwrap();
    let streams = (d.written().to_vec(), a.written().to_vec());
    let ends = (d.pos(), a.pos());
    assert_eq!(ends, (GUARD + streams.0.len(), GUARD + streams.1.len()));
    for (buffer, end) in [(&dc, ends.0), (&ac, ends.1)] {
        assert!(buffer[..GUARD].iter().chain(&buffer[end..]).all(|&b| b == 0xAA), "a byte outside the stream");
    }
    streams
}

#[test]
fn entries_of_document_01() {
    let flat = |v: u8, shift| coded(&[v; 128], 8, 0, 0, shift);
    assert_eq!(flat(128, 0), (vec![0xF0], vec![0x80, 0x80]));
    assert_eq!(flat(255, 0), (vec![0x00, 0x3F, 0x8E], vec![0x80, 0x80]));
    assert_eq!(flat(0, 0), (vec![0x00, 0x10, 0x01, 0x80], vec![0x80, 0x80]));
    assert_eq!(flat(255, 3), (vec![0x01, 0xFF, 0x80], vec![0x80, 0x80]));
}

#[test]
fn z_54_is_read_and_55_refused() {
    let mut rows = [9u8; 128];
    let six = [0, 0, 0, 0, 0, 0, 1];
    let read = |rows: &mut [u8], dc: &[u8]| {
        decode_plane(rows, 8, 0, 0, 0, &mut StreamReader::new(dc), &mut StreamReader::new(&[]))
    };
    assert_eq!(read(&mut rows, &six), Ok(()));
    rows.fill(9);
    assert_eq!(read(&mut rows, &[0; 7]), Err(Refused::Code));
    assert_eq!(rows, [9; 128]);
}

fn refusals_of<S: Sample>() {
    let rows = [S::default(); 128];
    // (stride, place, preset, shift, samples, start of DC, number when coding, when reading)
    let cases = [
        (8, 0, 25, 16, 128, 0, 1, 1),
        (8, 4, 24, 16, 128, 0, 2, 2),
        (7, 4, 24, 15, 128, 0, 3, 3),
        (12, 3, 24, 15, 0, 0, 4, 4),
        (0, 3, 24, 15, 0, 0, 4, 4),
        (7688, 3, 24, 15, 0, 0, 4, 4),
        (usize::MAX - 7, 3, 24, 15, 0, 0, 4, 4),
        (8, 3, 24, 15, 127, 0, 5, 5),
        (8, 3, 24, 15, 128, 11, 6, 0),
        (8, 3, 24, 15, 128, usize::MAX, 6, 7),
        (8, 3, 24, 15, 128, 16_777_216, 6, 7),
        (8, 3, 24, 15, 128, 10, 0, 0),
    ];
    for (i, &(stride, place, preset, shift, samples, start, coding, reading)) in cases.iter().enumerate() {
        let (mut dc, mut ac) = buffers(8);
        let (mut d, mut a) = (StreamWriter::at(&mut dc, start), StreamWriter::new(&mut ac));
        let got = encode_plane(&rows[..samples], stride, place, preset, shift, &mut d, &mut a);
        assert_eq!(got.err().map_or(0, Refused::number), coding, "coding, case {i}");
        if coding != 0 {
            assert_eq!((d.pos(), a.pos(), d.written().len()), (start, 0, 0), "case {i}");
            assert!(dc.iter().chain(&ac).all(|&b| b == 0xAA), "case {i}: a byte changed");
        }
        let mut into = rows[..samples].to_vec();
        let (mut d, mut a) = (StreamReader::at(&[], start), StreamReader::new(&[]));
        let got = decode_plane(&mut into, stride, place, preset, shift, &mut d, &mut a);
        assert_eq!(got.err().map_or(0, Refused::number), reading, "reading, case {i}");
        if reading != 0 {
            assert_eq!((d.pos(), a.pos()), (start, 0), "case {i}");
            assert!(into == rows[..samples], "case {i}: a sample changed");
        }
    }
}

#[test]
fn refusals() {
    refusals_of::<u8>();
    refusals_of::<u16>();
}

#[test]
fn streams_above_the_limits_are_not_read() {
    let (dc, ac) = (vec![0xFF; 245_761], vec![0xFF; 430_081]);
    let read = |dc: &[u8], ac: &[u8]| {
        decode_plane(&mut [0u8; 128], 8, 0, 0, 0, &mut StreamReader::new(dc), &mut StreamReader::new(ac))
    };
    assert_eq!(read(&dc, &ac[..430_080]), Err(Refused::Start));
    assert_eq!(read(&dc[..245_760], &ac), Err(Refused::Start));
    assert_eq!(read(&dc[..245_760], &ac[..430_080]), Ok(()));
}

#[test]
fn previews_and_reports_are_refused_too() {
    let (mut upper, mut lower) = ([3; 2], [4; 2]);
    let mut preview = |stride, place, shift, dc: &[u8], start| {
        let mut dc = StreamReader::at(dc, start);
        let got = decode_plane_preview(&mut upper, &mut lower, stride, place, shift, &mut dc);
        assert_eq!((upper, lower, dc.pos()), ([3; 2], [4; 2], start));
        got.unwrap_err().number()
    };
    assert_eq!(preview(8, 0, 16, &[], 0), 2);
    assert_eq!(preview(8, 4, 15, &[], 0), 3);
    assert_eq!(preview(8, 1 << 32, 15, &[], 0), 3);
    assert_eq!(preview(8, usize::MAX, 15, &[], 0), 3);
    assert_eq!(preview(9, 3, 15, &[], 0), 4);
    assert_eq!(preview(24, 3, 15, &[], 0), 5);
    assert_eq!(preview(16, 3, 15, &[], 16_777_216), 7);
    assert_eq!(preview(16, 3, 15, &[0xFF, 0, 0, 0, 0, 0, 0, 0], 1), 8);
    let mut bytes = [5; 4];
    let mut report = |stride, ac: &[u8], start| {
        let mut ac = StreamReader::at(ac, start);
        let got = block_report(&mut bytes, stride, &mut ac);
        assert_eq!((bytes, ac.pos()), ([5; 4], start));
        got.unwrap_err().number()
    };
    assert_eq!(report(1, &[], 0), 4);
    assert_eq!(report(24, &[], 0), 5);
    assert_eq!(report(16, &[], 16_777_216), 7);
    assert_eq!(report(16, &[0; 7], 0), 8);
}

/// A plane with some detail.
fn picture<S: Sample>(random: &mut Random, stride: usize) -> Vec<S> {
    let max = if S::DEPTH == Depth::Eight { 255 } else { 1023 };
    let (slope, noise) = (random.below(9), 1 + random.below(max / 2));
    (0..16 * stride).map(|i| S::from_lane(((i % stride * slope + random.below(noise)) % max) as u16)).collect()
}

fn slices_of<S: Sample>() {
    let mut random = Random(7);
    for turn in 0..200 {
        let count = 1 + turn % 4;
        let strides: Vec<usize> = (0..count).map(|_| 8 * (1 + random.below(6))).collect();
        let rows: Vec<Vec<S>> = strides.iter().map(|&s| picture(&mut random, s)).collect();
        let (preset, shift) = (random.below(25), random.below(16) as u32);
        let size = slice_size(&strides).unwrap();
        let (mut dc, mut ac) = (vec![0; size.dc], vec![0; size.ac]);
        let (mut dc, mut ac) = (StreamWriter::new(&mut dc), StreamWriter::new(&mut ac));
        let planes: Vec<_> = rows.iter().zip(&strides).map(|(rows, &stride)| Plane { rows, stride }).collect();
        encode_slice(&planes, preset, shift, &mut dc, &mut ac).unwrap();

        // the planes' own streams, one after the other
        let each: Vec<_> = planes.iter().enumerate().map(|(p, x)| coded(x.rows, x.stride, p, preset, shift)).collect();
        assert_eq!(dc.written(), each.iter().map(|e| &e.0[..]).collect::<Vec<_>>().concat());
        assert_eq!(ac.written(), each.iter().map(|e| &e.1[..]).collect::<Vec<_>>().concat());

        // as a slice and as planes in a row: the same samples and ends
        let (mut d, mut a) = (StreamReader::new(dc.written()), StreamReader::new(ac.written()));
        let (mut d1, mut a1) = (d.clone(), a.clone());
        let mut whole: Vec<Vec<S>> = strides.iter().map(|&s| vec![S::default(); 16 * s]).collect();
        let mut single = whole.clone();
        let mut into: Vec<_> =
            whole.iter_mut().zip(&strides).map(|(rows, &stride)| PlaneMut { rows, stride }).collect();
        decode_slice(&mut into, preset, shift, &mut d, &mut a).unwrap();
        for (p, rows) in single.iter_mut().enumerate() {
            decode_plane(rows, strides[p], p, preset, shift, &mut d1, &mut a1).unwrap();
        }
        assert!(whole == single);
        assert_eq!((d.pos(), a.pos(), d1.pos(), a1.pos()), (dc.pos(), ac.pos(), dc.pos(), ac.pos()));

        // a bad code at the last plane's beginning: no sample of any plane changes
        let mut bad = dc.written().to_vec();
        bad.truncate(dc.pos() - each[count - 1].0.len());
        bad.extend([0; 7]);
        let before = whole.clone();
        let mut into: Vec<_> =
            whole.iter_mut().zip(&strides).map(|(rows, &stride)| PlaneMut { rows, stride }).collect();
        let (mut d, mut a) = (StreamReader::new(&bad), StreamReader::new(ac.written()));
        assert_eq!(decode_slice(&mut into, preset, shift, &mut d, &mut a), Err(Refused::Code));
        assert_eq!((d.pos(), a.pos()), (0, 0));
        assert!(whole == before);
    }
}

#[test]
fn slices_are_their_planes_in_order() {
    slices_of::<u8>();
    slices_of::<u16>();
}

#[test]
fn slices_of_no_or_five_planes() {
    let rows = [0u8; 128];
    let (mut dc, mut ac) = (vec![0; 999], vec![0; 9999]);
    for count in [0, 5] {
        let planes = vec![Plane { rows: &rows[..], stride: 8 }; count];
        let (mut d, mut a) = (StreamWriter::new(&mut dc), StreamWriter::new(&mut ac));
        assert_eq!(encode_slice(&planes, 0, 0, &mut d, &mut a), Err(Refused::Plane));
        let mut five = vec![[0u8; 128]; count];
        let mut planes: Vec<_> = five.iter_mut().map(|rows| PlaneMut { rows: &mut rows[..], stride: 8 }).collect();
        let (mut d, mut a) = (StreamReader::new(&[]), StreamReader::new(&[]));
        assert_eq!(decode_slice(&mut planes, 0, 0, &mut d, &mut a), Err(Refused::Plane));
        assert_eq!(slice_size(&vec![8; count]), Err(Refused::Plane));
    }
}

#[test]
fn each_question_is_put_to_all_planes_before_the_next() {
    let rows = [0u8; 128];
    let short_then_bad_stride = [Plane { rows: &rows[..127], stride: 8 }, Plane { rows: &rows[..], stride: 9 }];
    let (mut dc, mut ac) = (vec![0; 999], vec![0; 9999]);
    let (mut d, mut a) = (StreamWriter::new(&mut dc), StreamWriter::new(&mut ac));
    assert_eq!(encode_slice(&short_then_bad_stride, 0, 0, &mut d, &mut a), Err(Refused::Stride));
}
