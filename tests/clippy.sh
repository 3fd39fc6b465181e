#!/usr/bin/env bash
# cargo clippy over all Rust code, warnings as errors, where it is installed: the oracle with its reference crate, the Rust
# crate, the program with and without its feature, the link test. The build scripts look for the static libraries.
set -euo pipefail
cd "$(dirname "$0")/.."
export CARGO_TARGET_DIR="$PWD/target/clippy"
if ! cargo clippy --version >/dev/null 2>&1; then
    echo "clippy: cargo clippy is not installed, the Rust code is left out"
    exit 0
fi
look() {
    local crate=$1
    shift
    cargo clippy --quiet --locked --offline --no-deps --all-targets --manifest-path "$crate/Cargo.toml" "$@" -- -D warnings
}
look oracle --workspace
look bindings/rust
look tool
look tool --all-features
clippy-driver --edition 2024 --emit metadata --out-dir "$CARGO_TARGET_DIR" -L target/staticlib \
    -D warnings -D clippy::undocumented_unsafe_blocks tests/link.rs
echo "clippy: nothing to say"
