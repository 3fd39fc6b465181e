#!/usr/bin/env bash
# Tests of what people use: the Rust crate (bindings/rust) and the program vmx (tool), over the proved static library.
# FUZZ is the number of damaged files that are read.
set -euo pipefail
cd "$(dirname "$0")/.."
export CARGO_TARGET_DIR="$PWD/target/users"
[ -n "${VMX_LIBRARY_BUILT:-}" ] || bash tests/library.sh vmx
for crate in bindings/rust tool; do
    cargo test --release --locked --offline --quiet --manifest-path "$crate/Cargo.toml"
done
cargo build --release --locked --offline --quiet --manifest-path tool/Cargo.toml
vmx="$CARGO_TARGET_DIR/release/vmx"
"$vmx" fuzz "${FUZZ:-5000}" 1

# README's examples in C and Rust: compiled, with warnings as errors, and run.
block() {
    awk -v from="\`\`\`$1" '$0 == from { on = 1; next } /^```/ { on = 0 } on' README.md >"$2"
    [ -s "$2" ] || { echo "users: README.md has no example in $1"; exit 1; }
}
block c target/users/readme.c
gcc -std=c99 -Wall -Wextra -Werror -Iinclude target/users/readme.c target/staticlib/libvmx.a -o target/users/readme_c
target/users/readme_c
block rust target/users/readme.rs
cargo build --release --locked --offline --quiet --manifest-path bindings/rust/Cargo.toml
rustc --edition 2021 -D warnings -O target/users/readme.rs --extern vmx="$CARGO_TARGET_DIR/release/libvmx.rlib" \
    -o target/users/readme_rust
target/users/readme_rust

# ffmpeg's test source there and back; the PSNR in dB that each quality must reach, a little below what it does reach.
if ! command -v ffmpeg >/dev/null; then
    echo "users: ffmpeg is not installed, its test source is left out"
    exit 0
fi
work="$PWD/target/users/ffmpeg"
mkdir -p "$work"
for pixels in yuv422p yuv422p10le; do
    ffmpeg -nostdin -v error -y -f lavfi -i testsrc2=size=1280x720:rate=25:duration=1 -pix_fmt "$pixels" -strict -1 "$work/in.y4m"
    while read -r quality least; do
        "$vmx" encode "$work/in.y4m" "$work/a.vmx" --quality "$quality"
        "$vmx" decode "$work/a.vmx" "$work/out.y4m"
        ffmpeg -nostdin -v error -y -i "$work/out.y4m" -f null - # it reads what we write
        said=$("$vmx" compare "$work/in.y4m" "$work/out.y4m")
        echo "users: $pixels, quality $quality: $said"
        awk -v said="$said" -v least="$least" 'BEGIN { split(said, w, "PSNR "); exit !(w[2] ~ /^equal/ || w[2] + 0 >= least) }' ||
            { echo "users: below $least dB"; exit 1; }
    done <<'TABLE'
36 34
60 36
80 40
90 44
99 58
TABLE
done
