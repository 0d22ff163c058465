#!/usr/bin/env bash
# The whole gate. First `rt ci`: all proofs, tests, must-fail edits and runs; what it passed earlier on this machine
# isn't proved again as long as nothing changes that it stands on. Then the modules of tests (tests/README.md), side by
# side, over the program that was built and over the sources; and the instructions of the benchmark on short nights.
#
# usage: tools/gate/gate.sh
#
# It prints a line where something is done, and what failed. All that is said is kept in out/test.log. The last
# line is 'N passed, M failed': that of `rt ci`, with one more for each test and for the benchmark, and with a failure for
# each must-fail edit that says nothing of a contract.
set -uo pipefail

program=crates/edfclaim/out/edfclaim

# Ends without the counts of `rt ci`.
give_up() {
    echo "$1" >&2
    echo "0 passed, 1 failed"
    exit 1
}

CDPATH='' cd -- "$(dirname -- "$0")/../.." || give_up "no folder of the project"
mkdir -p out && : >out/test.log || give_up "no file for all that is said"
# copies of the sources that a build left which was broken off: the toolchain would take them for others
rm -rf out/room
# as many tasks of rt ci, and as many modules of tests, side by side as the machine bears
RT_JOBS=$(tools/gate/lanes.sh) || give_up "the number of tasks side by side isn't known"
export RT_JOBS
trap 'exit 2' HUP INT TERM

# Says a line, with the minutes and seconds since the beginning.
say() {
    printf '%d:%02d  %s\n' $((SECONDS / 60)) $((SECONDS % 60)) "$1"
}

# Of what rt ci says, its own lines, but for edits that were refused as they must be.
own_lines() {
    while IFS= read -r line; do
        case $line in
        'rt: must-fail '*': refused, as it must be'*) ;;
        'rt: '*) say "${line#rt: }" ;;
        esac
    done
}

echo "proving and testing, $RT_JOBS tasks side by side; all that is said: out/test.log"
rt ci 2>&1 | tee -a out/test.log | own_lines
status=${PIPESTATUS[0]}
last=$(tail -n 1 out/test.log)
if ! [[ $last =~ ^([0-9]+)\ passed,\ ([0-9]+)\ failed$ ]]; then
    tail -n 20 out/test.log
    give_up "rt ci ended with status $status and without its counts"
fi
passed=${BASH_REMATCH[1]}
failed=${BASH_REMATCH[2]}
if [ "$status" -ne 0 ] && [ "$failed" -eq 0 ]; then
    failed=1
fi
say "rt ci: $last"

# `rt ci` only tells of an edit that can't be applied, compiled or read
bad=$(grep -c '^rt: .*: BAD EDIT: ' out/test.log)
failed=$((failed + bad))

# Each line of the tests, with the time; of a module with a failure they are all that it said.
EDFCLAIM=$program python3 -B -m tests 2>&1 | tee out/script.log | while IFS= read -r line; do say "$line"; done
status=${PIPESTATUS[0]}
cat out/script.log >>out/test.log
last=$(tail -n 1 out/script.log)
if [[ $last =~ ^([0-9]+)\ passed,\ ([0-9]+)\ failed$ ]]; then
    passed=$((passed + BASH_REMATCH[1]))
    failed=$((failed + BASH_REMATCH[2]))
    if [ "$status" -ne 0 ] && [ "${BASH_REMATCH[2]}" -eq 0 ]; then
        failed=$((failed + 1))
    fi
else
    failed=$((failed + 1))
    say "the tests ended with status $status and without their counts"
fi

bench/count >out/script.log 2>&1
status=$?
cat out/script.log >>out/test.log
if [ "$status" -eq 0 ]; then
    passed=$((passed + 1))
else
    failed=$((failed + 1))
    cat out/script.log
fi
say "bench/count: $(tail -n 1 out/script.log)"
echo "$passed passed, $failed failed"
[ "$failed" -eq 0 ]
