#!/usr/bin/env bash
# The layout of Rust code, by rustfmt where that is installed (rustfmt.toml at the root is for all of it). Rattle code is laid out
# by rt fmt, and rt ci refuses what is not.
set -euo pipefail
cd "$(dirname "$0")/.."
if ! cargo fmt --version >/dev/null 2>&1; then
    echo "format: cargo fmt is not installed, the Rust code is left out"
    exit 0
fi
for crate in oracle oracle/reference bindings/rust tool; do
    cargo fmt --check --manifest-path "$crate/Cargo.toml"
done
# Files that no crate lists by itself: the modules below the published files, and the link test.
rustfmt --check --edition 2021 oracle/reference/src/probe/*.rs
rustfmt --check --edition 2024 tests/link.rs
echo "format: the Rust code is laid out"
