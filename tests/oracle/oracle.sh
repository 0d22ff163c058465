#!/usr/bin/env bash
# Tries the readers of fields, headers, lanes, whole files and claims, the comparison of two headers, the
# runs on two files and on a file and several exports of it under a claim, and the drafts of claims, against a second
# reading of the rules, in Python (tests/reading). It proves nothing: it looks for rules that were understood in two ways.
# The crates run unproved, in the toolchain's interpreter.
#
# usage: tests/oracle/oracle.sh [SEED]     seed 1 where none is said
#
# 1700 cases for the readers, 1000 for the run on two files, 2000 for that on several exports, and 10,000 honest exports
# for the drafts, under each of which the second reading has to say the Yes that it says under the claim itself. The
# toolchain lets a program run for 120 seconds and print 1 MB, so the cases of the last two are cut into several runs.
# Each of the four ends with a line 'N passed, M failed'. Where the proved program stands, five more follow (where it
# doesn't, that is a failure), each with a line of the same kind: 10,000 wrong exports, of which what it explains is
# recounted from how they were made (tests/oracle/honesty.py), and 2,000 in one to five parts
# (tests/oracle/honest_parts.py); 10,000 honest ones that were moved by any number of seconds, of which fewer than one in
# 100 has a draft that isn't a Yes (tests/oracle/moved_drafts.py); 2,000 honest ones in two to four parts, each with a
# draft that is a Yes
# (tests/oracle/drafted_parts.py); and 2,000 files, of which the lines of the layout are worked out anew and
# each file out of these and of what it means, and no two that mean the same have the same lines (tests/oracle/layouts.py).
# Last, of 2,000 files each byte is changed in several ways: where the meaning stays, the lines don't
# (tests/oracle/layout_bytes.py); and of 40 honest exports: where the answer stays a Yes, the lines don't
# (tests/oracle/layout_exports.py).
set -euo pipefail

seed=${1:-1}
cd -- "$(dirname -- "$0")/../.."
work=$(mktemp -d)
trap 'rm -rf "$work"' EXIT
trap 'exit 2' HUP INT TERM
export PYTHONDONTWRITEBYTECODE=1

# Puts a crate as it stands into a folder of crates.
take() {
    mkdir -p "$1/crates/$2"
    for part in src specs proofs; do
        # not every crate has proofs of its own
        [ ! -d "crates/$2/$part" ] || cp -R "crates/$2/$part" "$1/crates/$2/"
    done
    grep "^$2:" crates.txt >>"$1/crates.txt"
    cp HANDLES "$1/"
}

# Runs the program of a crate on the cases.
answers() {
    if ! (cd "$1/crates/$2" && rt try <"$1/cases" >"$1/given" 2>"$1/log"); then
        cat "$1/log" >&2
        exit 1
    fi
}

for crate in edf_fields edf_header edf_tal edf_stream edf_claim edf_verdict edf_stop edf_heads edf_samples edf_pace \
    edf_check edf_recording edf_guesses edf_trial edf_draft; do
    take "$work" "$crate"
done

# Adds a program of one file that stands on these crates.
add() {
    mkdir -p "$work/crates/$1/src"
    cp "tests/oracle/$1.rt.in" "$work/crates/$1/src/main.rt"
    echo "$1: $2" >>"$work/crates.txt"
}

add answers "edf_fields edf_header edf_tal edf_stream edf_claim edf_heads edf_verdict jiff"
add verdicts "edf_fields edf_claim edf_stop edf_check"
add parts "edf_fields edf_claim edf_stop edf_check"
add drafts "edf_fields edf_draft edf_trial"
failed=0

# Makes cases, of which so many go into a run of the program of a crate, and runs it on them; all cases and all that is
# given for them stand in the files `all_cases` and `all_given`.
in_runs() {
    local lines=$1 program=$2 cases
    shift 2
    rm -f "$work"/cases.*
    python3 -m "$@" | split -a 3 -l "$lines" - "$work/cases."
    : >"$work/all_cases"
    : >"$work/all_given"
    for cases in "$work"/cases.*; do
        mv "$cases" "$work/cases"
        answers "$work" "$program"
        cat "$work/cases" >>"$work/all_cases"
        cat "$work/given" >>"$work/all_given"
    done
}

python3 -m tests.oracle.cases "$seed" 1700 >"$work/cases"
answers "$work" answers
python3 -m tests.reading.rules "$work/cases" "$work/given" || failed=1

python3 -m tests.oracle.verdict_cases "$seed" 1000 >"$work/cases"
answers "$work" verdicts
python3 -m tests.reading.verdict_rules "$work/cases" "$work/given" || failed=1

in_runs 500 parts tests.oracle.parts_cases "$seed" 2000
python3 -m tests.reading.parts_rules "$work/all_cases" "$work/all_given" || failed=1

in_runs 800 drafts tests.oracle.draft_cases "$seed" 10000
python3 -m tests.reading.draft_rules "$work/all_cases" "$work/all_given" || failed=1

program=crates/edfclaim/out/edfclaim
if [ -x "$program" ]; then
    python3 -m tests.oracle.honesty "$program" 10000 "$seed" || failed=1
    python3 -m tests.oracle.honest_parts "$program" 2000 "$seed" || failed=1
    python3 -m tests.oracle.moved_drafts "$program" 10000 "$seed" || failed=1
    python3 -m tests.oracle.drafted_parts "$program" 2000 "$seed" || failed=1
    python3 -m tests.oracle.layouts "$program" 2000 "$seed" || failed=1
else
    echo "no proved program: what it explains of wrong exports, drafts of moved ones and of several, and layouts, are left out"
    failed=1
fi
python3 -m tests.oracle.layout_bytes 2000 "$seed" || failed=1
python3 -m tests.oracle.layout_exports 40 "$seed" || failed=1
exit "$failed"
