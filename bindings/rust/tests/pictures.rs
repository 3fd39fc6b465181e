//! Whole pictures: the number of threads does not show, a refused slice keeps what was shown.

mod common;

use common::Random;
use vmx::*;

fn noisy<S: Sample>(layout: &Layout, random: &mut Random, interlaced: bool) -> Picture<S> {
    let mut picture = Picture::new(layout, false);
    let max = if S::DEPTH == Depth::Eight { 255 } else { 1023 };
    for p in 0..3 {
        let base = 20 + random.below(200);
        for r in 0..layout.aligned_height() {
            if layout.image_row(r, interlaced).is_some() {
                for (x, v) in picture.row_mut(p, r).iter_mut().enumerate() {
                    *v = S::from_lane(((base + x / 3 + r + random.below(20)) % max) as u16);
                }
            }
        }
    }
    picture.pad(interlaced);
    picture
}

fn any_number_of_threads<S: Sample>(interlaced: bool) {
    let (width, height) = (70, if interlaced { 480 } else { 100 });
    let mut encoder = Encoder::new(width, height).unwrap();
    encoder.set_quality(80);
    encoder.set_dc_shift(2);
    let picture = noisy::<S>(encoder.layout(), &mut Random(3), interlaced);
    encoder.set_threads(1);
    let frame = encoder.encode(&picture, interlaced).unwrap();
    let mut shown = Vec::new();
    for threads in [1, 2, 3, 64] {
        encoder.set_threads(threads);
        assert!(encoder.encode(&picture, interlaced).unwrap() == frame, "{threads} threads: other bytes");
        let mut decoder = Decoder::<S>::new(width, height, false).unwrap();
        decoder.set_threads(threads);
        assert!(decoder.decode(&frame, 1).unwrap().iter().all(|v| v.is_ok()));
        assert_eq!(decoder.interlaced(), interlaced);
        shown.push(decoder.shown().clone());
    }
    assert!(shown.windows(2).all(|w| w[0] == w[1]), "the number of threads shows");
    let worst = (0..3).flat_map(|p| shown[0].plane(p).iter().zip(picture.plane(p)));
    let worst = worst.map(|(a, b)| a.lane().abs_diff(b.lane())).max().unwrap();
    assert!(worst <= if S::DEPTH == Depth::Eight { 64 } else { 255 }, "off by {worst}");
}

#[test]
fn threads_do_not_show() {
    for interlaced in [false, true] {
        any_number_of_threads::<u8>(interlaced);
        any_number_of_threads::<u16>(interlaced);
    }
}

/// Where the DC stream of a slice lies in the frame.
fn dc_place(layout: &Layout, frame: &[u8], slice: usize) -> std::ops::Range<usize> {
    let part = Frame::parse(layout, frame).unwrap().dc(slice).unwrap();
    let start = part.as_ptr() as usize - frame.as_ptr() as usize;
    start..start + part.len()
}

fn a_held_band<S: Sample>() {
    let encoder = Encoder::new(64, 64).unwrap();
    let layout = *encoder.layout();
    let mut random = Random(5);
    let (first, second) = (noisy::<S>(&layout, &mut random, false), noisy::<S>(&layout, &mut random, false));
    let mut decoder = Decoder::<S>::new(64, 64, false).unwrap();
    decoder.decode(&encoder.encode(&first, false).unwrap(), 10).unwrap();
    let held = decoder.shown().clone();

    let whole = encoder.encode(&second, false).unwrap();
    let mut alone = Decoder::<S>::new(64, 64, false).unwrap();
    alone.decode(&whole, 20).unwrap();
    let new = alone.shown().clone();

    let mut frame = whole.clone();
    let place = dc_place(&layout, &frame, 2);
    frame[place.start..place.start + 7].fill(0);
    let verdicts = decoder.decode(&frame, 20).unwrap();
    assert_eq!(verdicts, [Ok(()), Ok(()), Err(Refused::Code), Ok(())]);
    assert_eq!(decoder.times(), [20, 20, 10, 20]);
    for p in 0..3 {
        let rows = 16 * layout.strides()[p];
        for s in 0..4 {
            let from = if s == 2 { &held } else { &new };
            let part = s * rows..(s + 1) * rows;
            assert!(decoder.shown().plane(p)[part.clone()] == from.plane(p)[part], "plane {p}, slice {s}");
        }
    }

    // a frame that is refused whole, or has no AC streams, changes nothing
    let before = decoder.clone();
    let preview_len = decoder.preview_len(&whole).unwrap();
    assert_eq!(decoder.decode(&whole[..whole.len() - 1], 30), Err(Refused::Bytes));
    assert_eq!(decoder.decode(&whole[..preview_len], 30), Err(Refused::Turn));
    assert!(decoder.shown() == before.shown() && decoder.times() == before.times());

    // the preview holds the band too
    let mut preview = Preview::new(64, 64, false).unwrap();
    preview.decode(&encoder.encode(&first, false).unwrap()[..]).unwrap();
    let old: Vec<Vec<u8>> = (0..8).map(|y| preview.row(0, y).to_vec()).collect();
    assert_eq!(preview.decode(&frame).unwrap(), verdicts);
    let now: Vec<Vec<u8>> = (0..8).map(|y| preview.row(0, y).to_vec()).collect();
    for y in 0..8 {
        assert_eq!(now[y] == old[y], y / 2 == 2, "preview row {y}");
    }
}

#[test]
fn a_bad_slice_is_a_held_band() {
    a_held_band::<u8>();
    a_held_band::<u16>();
}

#[test]
fn a_picture_of_another_size() {
    let encoder = Encoder::new(64, 64).unwrap();
    let picture = Picture::<u8>::new(&Layout::new(64, 48).unwrap(), false);
    assert_eq!(encoder.encode(&picture, false), Err(Refused::Size));
}

#[test]
fn alpha_is_a_fourth_plane() {
    let encoder = Encoder::new(32, 16).unwrap();
    let mut picture = Picture::<u8>::new(encoder.layout(), true);
    picture.plane_mut(3).fill(40);
    let mut decoder = Decoder::<u8>::new(32, 16, true).unwrap();
    assert_eq!(decoder.decode(&encoder.encode(&picture, false).unwrap(), 1), Ok(vec![Ok(())]));
    assert!(decoder.shown().plane(3).iter().all(|&v| v == 40));
}
