//! Finds libvmx.a, which `bash tests/library.sh vmx` builds at the repository's root, and links it.
//! VMX_LIB_DIR names another folder.

use std::path::PathBuf;
use std::{env, process};

fn main() {
    println!("cargo:rerun-if-env-changed=VMX_LIB_DIR");
    let here = PathBuf::from(env::var_os("CARGO_MANIFEST_DIR").expect("cargo sets CARGO_MANIFEST_DIR"));
    let folder = match env::var_os("VMX_LIB_DIR") {
        Some(folder) => PathBuf::from(folder),
        None => here.join("../../target/staticlib"),
    };
    let library = folder.join("libvmx.a");
    println!("cargo:rerun-if-changed={}", library.display());
    if !library.is_file() {
        eprintln!("error: {} is not there.", library.display());
        eprintln!("Run `bash tests/library.sh vmx` at the repository's root first, or name its folder in VMX_LIB_DIR.");
        process::exit(1);
    }
    println!("cargo:rustc-link-search=native={}", folder.display());
    println!("cargo:rustc-link-lib=static=vmx");
}
