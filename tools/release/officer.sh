#!/usr/bin/env bash
# Types the officer's path: each line behind `$ ` in the blocks of docs/START.md, in their order, in a copy of the folder of
# the example night, and compares what is printed with what the page shows behind it. It needs bash and awk alone, so
# that it runs in a root which has nothing else (tools/release/clean_root.sh).
#
# usage: tools/release/officer.sh [--sign] PROGRAM [PAGES]
#
# PAGES is the folder with docs/START.md and examples/night: the sources where none is said, and
# /usr/share/doc/edfclaim of an installed package. The lines are typed in one shell, with PROGRAM as edfclaim. A status has to
# be 0, or 1 where the page shows a NO. Where the page shows nothing behind a line, what it prints isn't compared.
#
# A line of gpg needs a key. With --sign one is made for the time of the run, in a folder of its own; else such lines are
# left out. The last line of the output counts the lines that passed and failed.
set -euo pipefail
export LC_ALL=C

sign=
if [ "${1:-}" = --sign ]; then
    sign=yes
    shift
fi
if [ "$#" -lt 1 ] || [ "$#" -gt 2 ] || [ ! -f "$1" ] || [ ! -x "$1" ]; then
    echo "usage: $0 [--sign] PROGRAM [PAGES]" >&2
    exit 2
fi
program=$(realpath -- "$1")
pages=$(realpath -- "${2:-$(dirname -- "$0")/../..}")
page=$pages/docs/START.md
night=$pages/examples/night
if [ ! -f "$page" ] || [ ! -d "$night" ]; then
    echo "$0: $pages has no docs/START.md with examples/night" >&2
    exit 2
fi
work=$(mktemp -d)
# the agent of gpg is that of this run's own folder
trap 'if [ -n "$sign" ]; then GNUPGHOME=$work/keys gpgconf --kill gpg-agent || true; fi; rm -rf "$work"' EXIT
trap 'exit 2' HUP INT TERM
if [ -n "$sign" ]; then
    command -v gpg >/dev/null || {
        sign=
        echo "$0: no gpg to sign with" >&2
        exit 2
    }
    mkdir -m 700 "$work/keys"
    export GNUPGHOME=$work/keys
    gpg --batch --quiet --pinentry-mode loopback --passphrase '' --quick-generate-key 'Example Centre <centre@example.org>' >"$work/log" 2>&1 || {
        cat "$work/log" >&2
        exit 2
    }
fi
cp -r -- "$night" "$work/night"
chmod -R u+w "$work/night"
mkdir "$work/bin" "$work/lines"
if [ "$(command -v edfclaim || true)" != "$program" ]; then
    ln -s -- "$program" "$work/bin/edfclaim"
    export PATH=$work/bin:$PATH
fi

# each line as a file N.typed, with what is shown behind it as N.shown
awk -v folder="$work/lines" '
    /^```/ { inside = !inside; showing = 0; next }
    inside && /^\$ / {
        count++
        name = sprintf("%s/%03d", folder, count)
        print substr($0, 3) >(name ".typed")
        close(name ".typed")
        printf "" >(name ".shown")
        showing = 1
        next
    }
    inside && showing { print >(name ".shown") }
' "$page"

# one shell types them all: what a line changes stays for the next ones
cat >"$work/type" <<'END'
cd "$1/night" || exit 2
for typed in "$1"/lines/*.typed; do
    eval "$(cat "$typed")" >"${typed%.typed}.said" 2>&1 </dev/null
    echo "$?" >"${typed%.typed}.status"
done
END
passed=0
failed=0
left=0
if [ -z "$sign" ]; then
    for typed in "$work"/lines/*.typed; do
        if [ -f "$typed" ] && grep -q '^gpg ' "$typed"; then
            echo "left out: $(cat "$typed")"
            rm "$typed"
            left=$((left + 1))
        fi
    done
fi
bash "$work/type" "$work" || true

for typed in "$work"/lines/*.typed; do
    [ -f "$typed" ] || continue
    line=${typed%.typed}
    wanted=0
    ! head -n 1 "$line.shown" | grep -q '^NO ' || wanted=1
    status=$(cat "$line.status" 2>/dev/null || echo none)
    if [ "$status" = "$wanted" ] && { [ ! -s "$line.shown" ] || cmp -s "$line.said" "$line.shown"; }; then
        passed=$((passed + 1))
    else
        failed=$((failed + 1))
        echo "\$ $(cat "$typed")"
        echo "status $status, and it printed:"
        cat "$line.said" 2>/dev/null || true
        echo "wanted: status $wanted, and:"
        cat "$line.shown"
    fi
done
if [ "$passed" -eq 0 ] && [ "$failed" -eq 0 ]; then
    failed=1
    echo "$page has no line to type"
fi
[ "$left" -eq 0 ] || echo "lines of gpg that were left out: $left"
echo "$passed passed, $failed failed"
[ "$failed" -eq 0 ]
