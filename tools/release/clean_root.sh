#!/usr/bin/env bash
# Installs the packages of PROGRAM in clean roots, which have nothing but what debootstrap calls the least, and runs the
# program there: the Debian package by apt, and the tarball unpacked to /opt. In each an ordinary user types the officer's
# path of docs/START.md (tools/release/officer.sh), also with gnupg, which is then installed from Debian.
#
# usage: tools/release/clean_root.sh PROGRAM [ROOT]..
#
# A ROOT is a release of Debian, such as bookworm, or a folder with such a root, which is copied and not made. Where none
# is said, they are bookworm (Debian 12) and trixie (Debian 13). The script runs as root, and needs debootstrap and Debian's
# mirror: two minutes and 300 MB in a temporary folder for each, so it is no part of the gate. Where lintian is on the
# machine, it has to find no error and no warning. The last line of the output counts what passed and failed.
set -euo pipefail

if [ "$#" -lt 1 ] || [ ! -f "$1" ] || [ ! -x "$1" ]; then
    echo "usage: $0 PROGRAM [ROOT].." >&2
    exit 2
fi
if [ "$(id -u)" -ne 0 ] || ! command -v chroot >/dev/null; then
    echo "$0: only root can change the root" >&2
    exit 2
fi
program=$(realpath -- "$1")
shift
roots=()
for name in "${@:-bookworm trixie}"; do
    # a release has a name without a slash
    # shellcheck disable=SC2206
    [ -d "$name" ] && roots+=("$(realpath -- "$name")") || roots+=($name)
done
work=$(mktemp -d)
trap 'rm -rf --one-file-system "$work"' EXIT
trap 'exit 2' HUP INT TERM
CDPATH='' cd -- "$(dirname -- "$0")/../.."
mkdir "$work/packages"
tools/release/package.sh deb "$program" "$work/packages"
tools/release/package.sh dist "$program" "$work/packages"
passed=0
failed=0

# Counts a line that was run, by its status, and prints what it said where it failed.
count() {
    if [ "$1" -eq 0 ]; then
        passed=$((passed + 1))
    else
        failed=$((failed + 1))
        echo "$2"
        tail -n 20 "$work/said"
    fi
}

# Runs a line in the root, and counts it.
try() {
    local status=0
    chroot "$root" /bin/bash -c "set -euo pipefail; $1" >"$work/said" 2>&1 </dev/null || status=$?
    count "$status" "$1"
}

# Runs a line in the root as an ordinary user, and counts it; what it says last is printed.
try_as_officer() {
    try "su officer -c '$1'"
    sed 's/^/  /' "$work/said" | tail -n 4
}

# Makes a root, or copies it, and tries all in it.
try_all() {
    local pages=/usr/share/doc/edfclaim listed opened
    root=$work/root
    if [ -d "$1" ]; then
        cp -a -- "$1" "$root"
    else
        debootstrap --variant=minbase "$1" "$root" >"$work/log" 2>&1 || {
            tail -n 5 "$work/log" >&2
            exit 2
        }
    fi
    echo "in a root of $(sed -n 's/^PRETTY_NAME="\(.*\)"$/\1/p' "$root/etc/os-release")"
    mkdir "$root/tmp/packages"
    cp "$work"/packages/* "$root/tmp/packages"
    cp examples/night/receipt.txt tools/release/officer.sh "$root/tmp/"
    chmod -R a+rX "$root/tmp/packages" "$root/tmp/officer.sh"

    try '! command -v edfclaim'
    listed="dpkg-query --show --showformat='\${Package}\\n' | sort"
    try "$listed >/tmp/before"
    try 'cd /tmp/packages && apt install --yes ./edfclaim_*.deb'
    try "test \"\$($listed | comm -3 /tmp/before - | tr -d '\\t')\" = edfclaim"
    try 'dpkg --verify edfclaim | diff - /dev/null'
    try "cd / && sha256sum --check --strict --quiet $pages/SHA256SUMS"
    try "cd $pages/examples/night && edfclaim receipt original.edf cut.edf cut.toml | diff - /tmp/receipt.txt"
    try "cd $pages/examples/night && ! edfclaim check original.edf name-left.edf cut.toml"
    try 'edfclaim vectors | tail -n 1'
    try 'for name in edfclaim edfclaim-look; do zcat /usr/share/man/man1/$name.1.gz | grep -q -i "^.TH $name 1"; done'
    try 'bash -n /usr/share/bash-completion/completions/edfclaim'
    try 'useradd --create-home officer'
    try_as_officer "bash /tmp/officer.sh /usr/bin/edfclaim $pages"
    if chroot "$root" /bin/bash -c 'apt-get update && apt-get install --yes --no-install-recommends gnupg' >"$work/said" 2>&1 </dev/null; then
        try_as_officer "bash /tmp/officer.sh --sign /usr/bin/edfclaim $pages"
    else
        tail -n 3 "$work/said"
        echo "gnupg can't be had from Debian: its lines are left out"
    fi
    try "dpkg --purge edfclaim && ! command -v edfclaim && test ! -e $pages"

    opened='cd /opt/edfclaim-*'
    try 'cd /tmp/packages && sha256sum --check --strict SHA256SUMS'
    try "mkdir -p /opt && tar -xzf /tmp/packages/*.tar.gz -C /opt && $opened && sha256sum --check --strict --quiet SHA256SUMS"
    try "$opened/share/doc/edfclaim/examples/night && ../../../../../bin/edfclaim receipt original.edf cut.edf cut.toml | diff - /tmp/receipt.txt"
    try_as_officer "$opened && bash /tmp/officer.sh bin/edfclaim share/doc/edfclaim"
    rm -rf --one-file-system "$root"
}

if command -v lintian >/dev/null; then
    status=0
    lintian --fail-on error,warning "$work"/packages/*.deb >"$work/said" 2>&1 || status=$?
    count "$status" lintian
    sed 's/^/  /' "$work/said"
else
    echo "no lintian on this machine: the Debian package isn't looked at by it"
fi
for name in "${roots[@]}"; do
    try_all "$name"
done
echo "$passed passed, $failed failed"
[ "$failed" -eq 0 ]
