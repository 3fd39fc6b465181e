//! A fixed piece of work, so often: for a tool that counts instructions (tests/instructions.sh).

use super::frames::Frame;
use super::planes::{coded, room, Streams};
use super::Content;
use crate::calls::{Calls, PlaneCoder, Rust};
use crate::gen::planes::Made;
use crate::ours::planes::OURS;
use crate::questions::Settings;
use reference::api::{Path, PATHS};
use std::hint::black_box;
use std::process::ExitCode;

/// `what` is the work, with the samples' depth at its end where there are samples. For planes coded or read a content may
/// follow, and a preset: read8-dense-0. Else the content is mixed, and the preset is 8.
pub fn work(who: &str, what: &str, times: usize) -> ExitCode {
    let path = match who {
        "ours" => None,
        "sse2" => Some(PATHS[0]),
        "portable" => Some(PATHS[1]),
        _ => return ExitCode::FAILURE,
    };
    let Some((call, content, settings)) = parts(what) else { return ExitCode::FAILURE };
    let mut one: Box<dyn FnMut()> = match call {
        "code8" => coding::<u8>(path, content, settings),
        "code10" => coding::<u16>(path, content, settings),
        "read8" => reading::<u8>(path, content, settings),
        "read10" => reading::<u16>(path, content, settings),
        "preview" | "report" if what == call => alone(path, what),
        "parse" | "streams" | "build" if what == call => framing(path, what),
        _ => return ExitCode::FAILURE,
    };
    for _ in 0..times {
        one();
    }
    ExitCode::SUCCESS
}

fn parts(what: &str) -> Option<(&str, Content, Settings)> {
    let mut words = what.split('-');
    let call = words.next()?;
    let content = words.next().map_or(Some(Content::Mixed), Content::named)?;
    let preset = words.next().map_or(Some(8), |n| n.parse().ok())?;
    words.next().is_none().then_some((call, content, Settings { preset, dc_shift: 0 }))
}

fn coding<T: Made + 'static>(path: Option<Path>, content: Content, settings: Settings) -> Box<dyn FnMut()> {
    let (plane, mut b) = (content.plane::<T>(1920), room(1920));
    match path.map(Rust::new) {
        Some(rust) => Box::new(move || drop(black_box(rust.streams(settings, &plane)))),
        None => Box::new(move || {
            (b.dc_at, b.ac_at) = (0, 0);
            assert_eq!(OURS.code_plane(settings, &plane, black_box(&mut b)), 0);
        }),
    }
}

fn reading<T: Made + 'static>(path: Option<Path>, content: Content, settings: Settings) -> Box<dyn FnMut()> {
    let mut plane = content.plane::<T>(1920);
    let mut b = coded(settings, std::slice::from_ref(&plane));
    match path.map(Rust::new) {
        Some(rust) => Box::new(move || assert!(rust.rows(settings, black_box(&mut plane), &b, (0, 0)).is_some())),
        None => Box::new(move || {
            (b.dc_at, b.ac_at) = (0, 0);
            assert_eq!(OURS.read_plane(settings, black_box(&mut plane), &mut b), 0);
        }),
    }
}

fn alone(path: Option<Path>, what: &str) -> Box<dyn FnMut()> {
    let mut plane = Streams::new::<u8>();
    match (path.map(Rust::new), what) {
        (Some(rust), "preview") => Box::new(move || plane.previewed_by_rust(&rust)),
        (Some(rust), _) => Box::new(move || plane.reported(&rust)),
        (None, "preview") => Box::new(move || plane.previewed()),
        (None, _) => Box::new(move || plane.reported(&OURS)),
    }
}

fn framing(path: Option<Path>, what: &str) -> Box<dyn FnMut()> {
    let mut frame = Frame::new(0);
    match (path, what) {
        (Some(_), "build") => Box::new(move || frame.built_by_rust()),
        (Some(_), _) => Box::new(move || frame.parsed_by_rust()),
        (None, "build") => Box::new(move || frame.built()),
        (None, "streams") => Box::new(move || frame.all_found()),
        (None, _) => Box::new(move || frame.parsed()),
    }
}
