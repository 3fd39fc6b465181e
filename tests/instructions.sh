#!/usr/bin/env bash
# Instructions that a plane takes (stride 1,920; depth, content and preset in the name), or a frame of 136 streams, ours
# against the Rust's SSE2 path, counted by callgrind: repeatable whatever the machine is doing, so that a change that loses
# vector code is seen, or a gain. The margins are in hundredths of the Rust's, 2 or 3 above what was measured: lower them with
# each gain. (A frame built: where the processor has it, the copy of a long stream is one rep movsb on both sides,
# counted by the byte: so only a copy by single bytes, of several instructions each, is seen.)
set -euo pipefail
shopt -s inherit_errexit # a command that fails inside $(..) ends the test
cd "$(dirname "$0")/.."
oracle=oracle/target/release/oracle
if ! command -v valgrind >/dev/null; then
    echo "instructions: valgrind is not installed, nothing is counted"
    if [ "${CI:-}" = true ]; then exit 1; fi
    exit 0
fi
# Ends the test unless $3, a count of `$1 $2`, is a number above 0.
counted() {
    [[ $3 =~ ^[1-9][0-9]*$ ]] || { echo "instructions: $1 $2: '$3' is no count" >&2; exit 1; }
}
# The cost of one more turn: eleven less one, over ten.
count() {
    local n all=()
    for n in 1 11; do
        valgrind --tool=callgrind --callgrind-out-file=/dev/null "$oracle" work "$1" "$2" "$n" 2>target/instructions.log ||
            { cat target/instructions.log >&2; exit 1; }
        all+=("$(awk '/Collected/ { print $NF }' target/instructions.log)")
    done
    counted "$1" "$2" "${all[0]}"
    counted "$1" "$2" "${all[1]}"
    n=$(((all[1] - all[0]) / 10))
    counted "$1" "$2" "$n"
    echo "$n"
}
mkdir -p target
while read -r what margin; do
    ours=$(count ours "$what")
    rust=$(count sse2 "$what")
    hundredths=$((100 * ours / rust))
    echo "instructions: $what: ours $ours, the Rust $rust, $hundredths of 100 (at most $margin)"
    [ "$hundredths" -le "$margin" ] || { echo "instructions: $what takes too many"; exit 1; }
done <<'TABLE'
code8-smooth-8 74
code8-mixed-8 65
code8-dense-8 62
code10-smooth-8 74
code10-mixed-8 64
code10-dense-8 62
read8-smooth-0 59
read8-smooth-8 72
read8-mixed-0 87
read8-mixed-8 66
read8-dense-0 90
read8-dense-8 60
read10-smooth-0 52
read10-smooth-8 54
read10-mixed-0 78
read10-mixed-8 57
read10-dense-0 84
read10-dense-8 55
preview 74
report 35
parse 44
streams 56
build 200
TABLE
