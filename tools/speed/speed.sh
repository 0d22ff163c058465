#!/usr/bin/env bash
# Measures how fast lanes of annotations are read, beside a comparison of the same bytes (tools/speed/tals.rt.in),
# and how fast a night of 206 MB is read by `conform`, beside `cmp` and `cat` (tools/speed/conform.rt.in).
#
# usage: tools/speed/speed.sh
#
# It works in a folder of its own, in which it proves and builds what it measures: some minutes from nothing.
# The night is written by python3.
set -euo pipefail

CDPATH='' cd -- "$(dirname -- "$0")/../.."
work=$(mktemp -d)
trap 'rm -rf "$work"' EXIT
trap 'exit 2' HUP INT TERM

cp HANDLES "$work/"
mkdir "$work/crates"
for crate in edf_fields edf_header edf_tal edf_stream; do
    mkdir "$work/crates/$crate"
    cp -R "crates/$crate/src" "crates/$crate/specs" "crates/$crate/proofs" "$work/crates/$crate/"
    grep "^$crate:" crates.txt >>"$work/crates.txt"
done

# Proves and builds a program of one file, which stands on these crates.
build() {
    mkdir -p "$work/crates/$1/src"
    cp "tools/speed/$2.rt.in" "$work/crates/$1/src/main.rt"
    echo "$1: $3" >>"$work/crates.txt"
    if ! (cd "$work/crates/$1" && rt run) >"$work/log" 2>&1; then
        cat "$work/log" >&2
        exit 1
    fi
}

# The seconds that a command takes, and those of them that the processor works for it and the system.
timed() {
    local TIMEFORMAT="$1: %R s, %U s of its own, %S s of the system"
    shift
    time "$@" >/dev/null
}

build tal_speed tals edf_tal
"$work/crates/tal_speed/out/tal_speed"

build conform_speed conform "edf_stream edf_fields"
python3 -B -m tests.long_nights "$work/night" 28800 160
cp "$work/night" "$work/copy"
for _ in 1 2 3 4 5; do
    timed conform "$work/crates/conform_speed/out/conform_speed" "$work/night"
    timed cmp cmp "$work/night" "$work/copy"
    timed cat cat "$work/night"
done
