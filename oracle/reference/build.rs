//! Copies the published sources, unchanged, into OUT_DIR and lists them as
//! modules. Four of them get a few more lines at their end: a child module,
//! which can see its parent's private items.

use std::path::{Path, PathBuf};
use std::{env, fs};

const FILES: [&str; 10] =
    ["bits", "convert", "dct", "decoder", "encoder", "lanes", "layout", "simd", "slice", "tables"];
const PROBED: [&str; 4] = ["bits", "dct", "decoder", "encoder"];
/// Not all of the published code is called here, and none of it is changed to please a lint.
const UNCHANGED: &str = "#[allow(dead_code, unsafe_op_in_unsafe_fn, clippy::all, clippy::undocumented_unsafe_blocks)]";
/// What stands below the published lines is ours.
const OURS: &str = "#[warn(dead_code, clippy::all)]\n#[deny(clippy::undocumented_unsafe_blocks)]";

fn main() {
    println!("cargo:rerun-if-env-changed=VMX_RUST_SRC");
    println!("cargo:rerun-if-env-changed=CI");
    println!("cargo:rustc-check-cfg=cfg(published)");
    let here = PathBuf::from(env::var("CARGO_MANIFEST_DIR").unwrap());
    // VMX_RUST_SRC is relative to the repository's root, two folders up.
    let root = here.join("../..");
    let src = root
        .join(env::var("VMX_RUST_SRC").unwrap_or_else(|_| "../shared/docs/src".into()))
        .join("crates/vmx-codec/src");
    for name in FILES {
        println!("cargo:rerun-if-changed={}", src.join(format!("{name}.rs")).display());
    }
    if !src.join("slice.rs").is_file() {
        let message = format!("the published Rust sources are not at {} (set VMX_RUST_SRC)", src.display());
        if env::var("CI").as_deref() == Ok("true") {
            eprintln!("error: {message}");
            std::process::exit(1);
        }
        println!("cargo:warning={message}: nothing will be compared");
        return;
    }
    let out = PathBuf::from(env::var("OUT_DIR").unwrap()).join("published");
    fs::create_dir_all(&out).unwrap();
    let mut list = String::new();
    for name in FILES {
        copy(&src, &out, &here, name);
        list += &format!("{UNCHANGED}\nmod {name};\n");
    }
    fs::write(out.join("list.rs"), list).unwrap();
    println!("cargo:rustc-cfg=published");
    println!("cargo:found=true");
}

/// Writes the copy of one file, and reads it back: the published bytes must be
/// its beginning.
fn copy(src: &Path, out: &Path, here: &Path, name: &str) {
    let from = src.join(format!("{name}.rs"));
    let published = fs::read(&from).unwrap_or_else(|e| panic!("{}: {e}", from.display()));
    let mut text = published.clone();
    if PROBED.contains(&name) {
        let probe = here.join(format!("src/probe/{name}.rs"));
        text.extend(format!("\n{OURS}\n#[path = {probe:?}]\npub(crate) mod probe;\n").bytes());
    }
    let to = out.join(format!("{name}.rs"));
    fs::write(&to, &text).unwrap();
    assert!(fs::read(&to).unwrap().starts_with(&published), "{} differs from {}", to.display(), from.display());
}
