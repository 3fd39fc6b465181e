//! Tells the program whether the published sources were found, and links our
//! static libraries, which `bash tests/library.sh NAME` builds at the repository's root.

const LIBRARIES: [&str; 3] = ["probe", "probe_pairs", "vmx"];

fn main() {
    println!("cargo:rustc-check-cfg=cfg(published)");
    println!("cargo:rerun-if-env-changed=DEP_VMX_PUBLISHED_FOUND");
    println!("cargo:rerun-if-env-changed=RATTLE_STATICLIB");
    if std::env::var("DEP_VMX_PUBLISHED_FOUND").is_err() {
        return;
    }
    println!("cargo:rustc-cfg=published");
    let here = std::path::PathBuf::from(std::env::var("CARGO_MANIFEST_DIR").unwrap());
    let folder = here.join(std::env::var("RATTLE_STATICLIB").unwrap_or_else(|_| "../target/staticlib".into()));
    for name in LIBRARIES {
        let file = folder.join(format!("lib{name}.a"));
        assert!(file.is_file(), "{} is not there: run `bash tests/library.sh {name}` first", file.display());
        println!("cargo:rerun-if-changed={}", file.display());
        println!("cargo:rustc-link-lib=static={name}");
    }
    println!("cargo:rustc-link-search=native={}", folder.display());
}
