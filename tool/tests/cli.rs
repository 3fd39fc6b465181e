//! The program as people call it.

use std::fs;
use std::io::Write;
use std::path::PathBuf;
use std::process::{Command, Output, Stdio};

/// A folder of its own for each test.
fn folder(name: &str) -> PathBuf {
    let folder = PathBuf::from(env!("CARGO_TARGET_TMPDIR")).join(name);
    fs::create_dir_all(&folder).unwrap();
    folder
}

/// Runs `vmx` in the folder, with input from a pipe.
fn vmx_with(folder: &PathBuf, line: &str, input: &[u8]) -> Output {
    let mut child = Command::new(env!("CARGO_BIN_EXE_vmx"))
        .args(line.split_whitespace())
        .current_dir(folder)
        .stdin(Stdio::piped())
        .stdout(Stdio::piped())
        .stderr(Stdio::piped())
        .spawn()
        .unwrap();
    let mut pipe = child.stdin.take().unwrap();
    let input = input.to_vec();
    let feed = std::thread::spawn(move || {
        let _ = pipe.write_all(&input);
    });
    let output = child.wait_with_output().unwrap();
    feed.join().unwrap();
    output
}

/// Runs `vmx`; its status, output and messages.
fn vmx(folder: &PathBuf, line: &str) -> (i32, String, String) {
    let out = vmx_with(folder, line, &[]);
    let text = |bytes: Vec<u8>| String::from_utf8_lossy(&bytes).into_owned();
    (out.status.code().unwrap_or(-1), text(out.stdout), text(out.stderr))
}

/// Runs `vmx`, which must go through without a word beside its output.
fn well(folder: &PathBuf, line: &str) -> String {
    let (status, out, err) = vmx(folder, line);
    assert_eq!((status, err.as_str()), (0, ""), "vmx {line}");
    out
}

/// The PSNR that `vmx compare` prints, in dB.
fn psnr(folder: &PathBuf, a: &str, b: &str) -> f64 {
    let out = well(folder, &format!("compare {a} {b}"));
    let value = out.split("PSNR ").nth(1).and_then(|t| t.split(' ').next()).unwrap();
    if value == "equal" {
        return f64::INFINITY;
    }
    value.parse().unwrap_or_else(|_| panic!("{out}"))
}

fn frames(n: usize, at: usize, bytes: &[u8]) -> Vec<(usize, usize)> {
    let mut at = at;
    (0..n)
        .map(|_| {
            let len = u32::from_le_bytes(bytes[at..at + 4].try_into().unwrap()) as usize;
            let place = (at + 4, len);
            at += 4 + len;
            place
        })
        .collect()
}

/// Places of the frames in a .vmx file.
fn places(bytes: &[u8]) -> Vec<(usize, usize)> {
    frames(10, bytes.iter().position(|&b| b == b'\n').unwrap() + 1, bytes)
}

#[test]
fn finer_quality_is_nearer_and_longer() {
    let f = folder("quality");
    // half a dB below what the Rust reaches on this picture
    let least = [28.5, 33.3, 42.0, 58.8];
    for depth in [8, 10] {
        well(&f, &format!("source in.y4m --depth {depth}"));
        let mut last = (0.0, 0);
        for (quality, least) in [36, 70, 90, 99].into_iter().zip(least) {
            well(&f, &format!("encode in.y4m a.vmx --quality {quality}"));
            well(&f, "decode a.vmx out.y4m");
            let now = (psnr(&f, "in.y4m", "out.y4m"), fs::metadata(f.join("a.vmx")).unwrap().len());
            assert!(now.0 > least, "{depth} bit, quality {quality}: {} dB", now.0);
            assert!(now.0 > last.0 && now.1 > last.1, "{depth} bit, quality {quality}: {now:?} after {last:?}");
            last = now;
        }
    }
}

#[test]
fn threads_do_not_show() {
    let f = folder("threads");
    well(&f, "source in.y4m");
    well(&f, "encode in.y4m 1.vmx --threads 1");
    well(&f, "decode 1.vmx 1.y4m --threads 1");
    for n in [2, 3, 64] {
        well(&f, &format!("encode in.y4m n.vmx --threads {n}"));
        well(&f, &format!("decode n.vmx n.y4m --threads {n}"));
        assert!(fs::read(f.join("1.vmx")).unwrap() == fs::read(f.join("n.vmx")).unwrap());
        assert!(fs::read(f.join("1.y4m")).unwrap() == fs::read(f.join("n.y4m")).unwrap());
    }
}

#[test]
fn pipes() {
    let f = folder("pipes");
    well(&f, "source in.y4m");
    well(&f, "encode in.y4m a.vmx --dc-shift 3");
    let video = fs::read(f.join("in.y4m")).unwrap();
    let coded = vmx_with(&f, "encode - - --dc-shift 3", &video);
    assert!(coded.status.success() && coded.stdout == fs::read(f.join("a.vmx")).unwrap());
    well(&f, "decode a.vmx out.y4m");
    let read = vmx_with(&f, "decode - -", &coded.stdout);
    assert!(read.status.success() && read.stdout == fs::read(f.join("out.y4m")).unwrap());
}

#[test]
fn depths() {
    let f = folder("depths");
    well(&f, "source 8.y4m");
    well(&f, "source 10.y4m --depth 10");
    // 8-bit video coded at 10 bit and read at 8 bit, and the other way round
    well(&f, "encode 8.y4m a.vmx --depth 10 --quality 99");
    assert!(well(&f, "info --brief a.vmx").contains("10 bit"));
    well(&f, "decode a.vmx out.y4m --depth 8");
    assert!(psnr(&f, "8.y4m", "out.y4m") > 48.0);
    well(&f, "encode 10.y4m a.vmx --depth 8 --quality 99");
    well(&f, "decode a.vmx out.y4m --depth 10");
    assert!(psnr(&f, "10.y4m", "out.y4m") > 46.0);
}

#[test]
fn fields() {
    let f = folder("fields");
    let (w, h) = (720, 480);
    let mut video = format!("YUV4MPEG2 W{w} H{h} F30000:1001 It A10:11 C422\n").into_bytes();
    video.extend(b"FRAME\n");
    // fields that differ much: in fields they cost little
    video.extend((0..w * h).map(|i| if i / w % 2 == 0 { 200 } else { 40 }));
    video.resize(video.len() + w * h, 128);
    fs::write(f.join("in.y4m"), &video).unwrap();
    well(&f, "encode in.y4m a.vmx");
    let info = well(&f, "info --brief a.vmx");
    assert!(info.contains("in fields, top first") && info.contains("DC shift 0, in fields"), "{info}");
    well(&f, "decode a.vmx out.y4m");
    let out = fs::read(f.join("out.y4m")).unwrap();
    assert!(out.starts_with(b"YUV4MPEG2 W720 H480 F30000:1001 It A10:11 C422"));
    assert!(psnr(&f, "in.y4m", "out.y4m") > 50.0);
    well(&f, "preview a.vmx p.y4m");
    assert!(fs::read(f.join("p.y4m")).unwrap().starts_with(b"YUV4MPEG2 W90 H60 "));
}

#[test]
fn a_bad_code_is_a_held_band() {
    let f = folder("band");
    well(&f, "source in.y4m");
    well(&f, "encode in.y4m a.vmx");
    well(&f, "decode a.vmx whole.y4m");
    let mut bytes = fs::read(f.join("a.vmx")).unwrap();
    let (at, _) = places(&bytes)[4];
    bytes[at + 7..at + 14].fill(0); // after header and length: the DC stream of slice 0
    fs::write(f.join("bad.vmx"), &bytes).unwrap();
    let (status, _, err) = vmx(&f, "decode bad.vmx out.y4m");
    assert_eq!(status, 3);
    assert!(
        err.contains("frame 4, slice 0 refused: a bad code in the stream (8); its rows 0 to 15 show frame 3"),
        "{err}"
    );
    let (whole, out) = (fs::read(f.join("whole.y4m")).unwrap(), fs::read(f.join("out.y4m")).unwrap());
    // luma rows of frame n
    let len = 640 * 360 * 2;
    let head = whole.iter().position(|&b| b == b'\n').unwrap() + 1;
    let luma = |video: &[u8], n: usize| video[head + n * (6 + len) + 6..][..640 * 360].to_vec();
    let band = 640 * 16;
    assert!(luma(&out, 4)[..band] == luma(&whole, 3)[..band], "the band shows frame 3");
    assert!(luma(&out, 4)[band..] == luma(&whole, 4)[band..], "the rest shows frame 4");
    assert!(luma(&out, 5) == luma(&whole, 5), "the next frame is whole again");
    let (status, info, _) = vmx(&f, "info bad.vmx");
    assert_eq!(status, 3);
    assert_eq!(info.matches("refused: a bad code in the stream (8)").count(), 1);
    assert_eq!(vmx(&f, "preview bad.vmx p.y4m").0, 3);
}

#[test]
fn damaged_files() {
    let f = folder("damaged");
    well(&f, "source in.y4m");
    well(&f, "encode in.y4m a.vmx --quality 60");
    let bytes = fs::read(f.join("a.vmx")).unwrap();
    let all = places(&bytes);
    let damaged = |change: &dyn Fn(&mut Vec<u8>)| {
        let mut copy = bytes.clone();
        change(&mut copy);
        fs::write(f.join("bad.vmx"), copy).unwrap();
        vmx(&f, "decode bad.vmx out.y4m")
    };
    let shown = || (fs::metadata(f.join("out.y4m")).unwrap().len() as usize) / (640 * 360 * 2);

    let (status, _, err) = damaged(&|b| b[all[2].0] = 9);
    assert_eq!((status, shown()), (3, 10));
    assert!(
        err.contains("frame 2 refused: the frame's first byte is not 1, 2 or 3 (11); the picture shows frame 1"),
        "{err}"
    );

    let (status, _, err) = damaged(&|b| b[all[0].0 + 2] = 9);
    assert!(status == 3 && err.contains("(12); the picture shows black, as nothing came before"), "{err}");

    let (status, _, err) = damaged(&|b| b.truncate(all[9].0 + 100));
    assert_eq!((status, shown()), (3, 10));
    assert!(err.contains("frame 9: the file ends within it") && err.contains("(10)"), "{err}");

    let (status, _, err) = damaged(&|b| b[all[5].0 - 1] = 0x7F);
    assert_eq!((status, shown()), (1, 5));
    assert!(err.contains("the file is damaged"), "{err}");

    let (status, _, err) = damaged(&|b| b[0] = b'X');
    assert!(status == 1 && err.contains("it is no .vmx file"), "{err}");
    let (status, _, err) = damaged(&|b| b.clear());
    assert!(status == 1 && err.contains("it is empty"), "{err}");
}

#[test]
fn wrong_videos() {
    let f = folder("videos");
    for (video, says) in [
        ("", "it is empty"),
        ("RIFF", "its line has no end"),
        ("RIFF\n", "it is no Y4M file"),
        ("YUV4MPEG2 W64 H64 F25:1 C420jpeg\n", "C420jpeg"),
        ("YUV4MPEG2 W63 H64 F25:1 C422\n", "(9)"),
        ("YUV4MPEG2 W64 H64 F25:1 C422\nFRAMES\n", "frame 0: it does not begin with FRAME"),
        ("YUV4MPEG2 W64 H64 F25:1 C422\nFRAME\nabc", "frame 0: the file ends after 3 of its 8192 bytes"),
    ] {
        let out = vmx_with(&f, "encode - out.vmx", video.as_bytes());
        let err = String::from_utf8_lossy(&out.stderr).into_owned();
        assert!(out.status.code() == Some(1) && err.contains(says), "{video:?}: {err}");
    }
    // no frames are a video too
    let out = vmx_with(&f, "encode - out.vmx", b"YUV4MPEG2 W64 H64 F25:1 C422\n");
    assert!(out.status.success());
    well(&f, "decode out.vmx out.y4m");
}

#[test]
fn wrong_command_lines() {
    let f = folder("lines");
    for line in [
        "what",
        "encode",
        "encode in.y4m",
        "encode a b c",
        "encode a b --quality 35",
        "encode a b --quality 100",
        "encode a b --dc-shift 16",
        "encode a b --depth 9",
        "encode a b --threads 0",
        "decode a b --quality 90",
        "info a --brief=x",
        "fuzz many 1",
    ] {
        let (status, out, err) = vmx(&f, line);
        assert_eq!((status, out.as_str()), (2, ""), "vmx {line}");
        assert!(err.starts_with("vmx: ") && err.ends_with("Try: vmx --help\n"), "vmx {line}: {err}");
    }
    for line in ["", "--help", "help", "encode -h"] {
        assert!(well(&f, line).contains("vmx encode"), "vmx {line}");
    }
    let (status, _, err) = vmx(&f, "decode nowhere.vmx out.y4m");
    assert!(status == 1 && err.starts_with("vmx: nowhere.vmx: "), "{err}");
}

#[test]
fn some_damaged_files_at_random() {
    let f = folder("fuzz");
    assert!(well(&f, "fuzz 500 7").contains("no sample changed on refusal"));
}

#[test]
fn the_demo_writes_its_pictures() {
    let f = folder("demo");
    let out = well(&f, "demo out");
    assert!(out.contains("slice 4 refused: a bad code in the stream (8); its rows show frame 0"), "{out}");
    for bits in [8, 10] {
        assert!(fs::read(f.join(format!("out/sheet{bits}.png"))).unwrap().starts_with(b"\x89PNG"));
        assert_eq!(vmx(&f, &format!("decode out/damaged{bits}.vmx out.y4m")).0, 3);
        well(&f, &format!("decode out/test{bits}.vmx out.y4m"));
    }
}
