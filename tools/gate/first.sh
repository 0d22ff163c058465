#!/bin/sh
# Shows a Yes and a No of the example night, in one to two minutes from a clean checkout.
#
# usage: tools/gate/first.sh
#
# Where the proved program stands there, and is that of the sources as they are, it is run. Else the program
# is compiled with checks and without proofs, and run so. A No is an answer: its status 1 is the one that is
# wanted. All that the toolchain says is kept in out/run.log.
set -u

cd -- "$(dirname -- "$0")/../.." || exit 2
night=$PWD/examples/night
mkdir -p out || exit 2
work=$(mktemp -d) || exit 2
trap 'rm -rf "$work"' EXIT
trap 'exit 2' HUP INT TERM

# the commands, a word a line each
mkdir "$work/cases"
printf '%s\n' check original.edf cut.edf cut.toml >"$work/cases/1.args"
printf '%s\n' check original.edf remark-left.edf cut.toml >"$work/cases/2.args"
: >"$work/cases/1"
: >"$work/cases/2"

# Says a command, and what it printed, or ends where its status isn't the one that is wanted.
show() {
    echo "\$ edfclaim $(tr '\n' ' ' <"$work/cases/$1.args" | sed 's/ $//')"
    cat "$work/line"
    if [ "$2" != "$3" ]; then
        echo "it ended with status $2, and not $3; all that is said: out/run.log"
        exit 1
    fi
}

if tools/gate/prove.sh current; then
    for case in 1 2; do
        # shellcheck disable=SC2046
        (cd "$night" && ../../crates/edfclaim/out/edfclaim $(cat "$work/cases/$case.args")) >"$work/line" 2>&1
        show "$case" $? $((case - 1))
    done
    echo "That was the proved program, crates/edfclaim/out/edfclaim."
    exit 0
fi

echo "compiling edfclaim with checks and without proofs, and running it on the example night: one to two minutes"
(cd crates/edfclaim && rt try --cases "$work/cases" --data original.edf="$night/original.edf" \
    --data cut.edf="$night/cut.edf" --data remark-left.edf="$night/remark-left.edf" \
    --data cut.toml="$night/cut.toml") >out/run.log 2>&1
for case in 1 2; do
    # what stands between the case's name and its last line
    awk -v head="== $case" -v last="case=$case " '
        $0 == head { inside = 1; next }
        index($0, last) == 1 { exit }
        inside { print }
    ' out/run.log >"$work/line"
    status=$(sed -n "s/^case=$case .*run=ended status=\([0-9]*\) .*/\1/p" out/run.log)
    show "$case" "${status:-none}" $((case - 1))
done
echo "That was run and not yet proved: make build proves all of it, and leaves the program (from nothing within an hour or so on 4 cores)."
