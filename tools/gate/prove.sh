#!/bin/sh
# Proves one crate, of which those below it were proved before, over what earlier runs kept; and looks after the program.
#
# usage: tools/gate/prove.sh lib NAME     proves it in a copy of the sources, since a run of the toolchain in a crate keeps
#                                         others out of the crates below it. The program is proved in its own place, and is
#                                         left built there.
#        tools/gate/prove.sh check NAME   proves it in its own place, where its work is kept for the next check
#        tools/gate/prove.sh current      whether the program that stands there was proved of the sources as they are
#
# It says when a proof begins and what was proved, or what wasn't. All that the toolchain says is in out/VERB-NAME.log.
set -u

cd -- "$(dirname -- "$0")/../.." || exit 1
top=$PWD
mkdir -p out || exit 1
program=crates/edfclaim/out/edfclaim

# A sum of all that the program may be made of.
sources() {
    find crates -name out -prune -o \( -name '*.rt' -o -name '*.antt' \) -print0 | LC_ALL=C sort -z |
        xargs -0 sha256sum crates.txt HANDLES | sha256sum
}

# A copy of the sources, which the toolchain finds again where it proves the crates above.
copy_to() {
    rm -rf "$1" && mkdir -p "$1" && find crates -name out -prune -o -type f -print0 | xargs -0 cp --parents -t "$1" crates.txt HANDLES
}

if [ "$1" = current ]; then
    [ -x "$program" ] && [ "$(sources && sha256sum "$program")" = "$(cat out/built.sum 2>/dev/null)" ] && exit 0 || exit 1
fi

verb=$1
name=$2
place=$top
set -- "$verb" --jobs "$(tools/gate/lanes.sh)"
if [ "$verb $name" = "lib edfclaim" ]; then
    set -- run --jobs "$(tools/gate/lanes.sh)" -- vectors
elif [ "$verb" = lib ]; then
    place=$top/out/room/$name
    copy_to "$place" || exit 1
    set -- lib --jobs 2
fi
command -v rt >/dev/null || { echo "there is no rt here: the Rattle toolchain is wanted" && exit 1; }
log=$top/out/$verb-$name.log
before=$(sources)
begun=$(date +%s)
echo "$name: begun"
if ! (cd "$place/crates/$name" && exec rt "$@") >"$log" 2>&1; then
    { grep -E "error|not proved" "$log" || tail -n 5 "$log"; } | head -n 10 | cut -c 1-300
    echo "$name isn't proved; all that is said: out/$verb-$name.log"
    exit 1
fi
functions=$(sed -n 's/^logic=proved functions=\([0-9]*\).*/\1/p' "$log" | tail -n 1)
if [ -n "$functions" ]; then said="$functions functions proved"; else said="as an earlier run proved it"; fi
echo "$name: $said, in $(($(date +%s) - begun)) s"
# what changed while it was proved may be no part of it
if [ "$verb $name" = "lib edfclaim" ] && [ "$before" = "$(sources)" ]; then
    { echo "$before" && sha256sum "$program"; } >out/built.sum
fi
