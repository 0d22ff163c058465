#!/usr/bin/env bash
# Measures the built program on nights, beside `cmp`, `cat` and `sha256sum` (tools/speed/bench.py): the
# processor's time, the time by the clock, the most memory.
#
# usage: tools/speed/bench.sh PROGRAM [SECONDS..]
#
# Each of SECONDS is the length of a night of 22 channels, a multiple of 30. Where none is said, it is one of 8
# hours (219 MB) and one of 80 hours. Of the first of these nights a receipt is measured, too, beside the check and the
# digests of both files, and a draft and an explanation. One of 8 hours follows that is handed out in 8 files, and nights
# that are large in one respect, each of 100 to 250 MB; and explanations of a night of 8 hours beside the check, where one
# value differs, all do, or all channels have other rates, or it is handed out in two halves (tools/speed/explained.py). What is
# written to a temporary folder has three times a night's size, and for the last of these 1.6 GB.
set -euo pipefail

if [ "$#" -lt 1 ] || [ ! -x "$1" ]; then
    echo "usage: $0 PROGRAM [SECONDS..]" >&2
    exit 2
fi
program=$(realpath -- "$1")
shift
lengths=(28800 288000)
if [ "$#" -gt 0 ]; then
    lengths=("$@")
fi
for seconds in "${lengths[@]}"; do
    if ! [[ $seconds =~ ^[1-9][0-9]{1,6}$ ]] || [ $((seconds % 30)) -ne 0 ]; then
        echo "$0: not the length of a night: $seconds" >&2
        exit 2
    fi
done
tools=$(CDPATH='' cd -- "$(dirname -- "$0")" && pwd)
work=$(mktemp -d)
trap 'rm -rf "$work"' EXIT
trap 'exit 2' HUP INT TERM
export PYTHONDONTWRITEBYTECODE=1

python3 "$tools/bench.py" "$program" "$work" "${lengths[@]}"
echo "explanations beside the check, 8 hours:"
rm -rf "${work:?}"/*
python3 "$tools/explained.py" "$program" "$work"
