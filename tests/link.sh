#!/usr/bin/env bash
# Links a C program, the same as C++, and a Rust program with the static library and runs them.
set -euo pipefail
cd "$(dirname "$0")/.."
[ -n "${VMX_LIBRARY_BUILT:-}" ] || bash tests/library.sh vmx
mkdir -p target/link
gcc -std=c99 -Wall -Wextra -Werror -Iinclude tests/link.c target/staticlib/libvmx.a -o target/link/c
target/link/c
if command -v g++ >/dev/null; then
    g++ -Wall -Wextra -Werror -Iinclude -x c++ tests/link.c -x none target/staticlib/libvmx.a -o target/link/cpp
    target/link/cpp
fi
rustc -O --edition 2024 -L target/staticlib tests/link.rs -o target/link/rust
target/link/rust
