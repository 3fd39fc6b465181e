#!/usr/bin/env bash
# Builds the static libraries of the names given (vmx, probe, probe_pairs): rt lib proves and compiles crate NAME_c, and its
# archive goes to target/staticlib/libNAME.a. They are for every x86-64 processor: the kit's own choice is x86-64-v2, which a
# library does not check, and for which the compiler makes slower code of the transforms (docs/SPEED.md).
set -euo pipefail
cd "$(dirname "$0")/.."
mkdir -p target/staticlib
for name in "$@"; do
    (cd "crates/${name}_c" && rt lib --cpu x86-64)
    cp "crates/${name}_c/out/lib${name}_c.a" "target/staticlib/lib$name.a"
done
