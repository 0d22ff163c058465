#!/usr/bin/env bash
# Packs PROGRAM with its manual pages, the pages, the examples, what helps those who script, the licences, and the
# checksums of all of it, to the folder TO.
#
# usage: tools/release/package.sh deb PROGRAM TO      a Debian package, of the folder debian
#        tools/release/package.sh plain PROGRAM TO    the same package without debhelper
#        tools/release/package.sh dist PROGRAM TO     a tarball, and TO/SHA256SUMS with its digest
#        tools/release/package.sh tree PROGRAM TO     no package: the files that one installs, below TO/usr
#        tools/release/package.sh sums TO             no package: the checksums of the files below TO
#
# deb calls debhelper, which reads debian/rules, where that is on the machine. Where it isn't, or for plain, dpkg-deb
# packs the same files with the fields of debian/control. The first three print the name of what they wrote. The same
# program and the same sources give the same bytes: files are in the order of their names, owned by root, and have the
# time of the last commit, or SOURCE_DATE_EPOCH where that is set.
set -euo pipefail
export LC_ALL=C
umask 022

# Ends with what is wrong.
give_up() {
    echo "$0: $1" >&2
    exit 2
}

# Ends with the lines of the usage.
give_usage() {
    sed -n 's/^# usage: /usage: /p; s/^#        tools/       tools/p' "$0" >&2
    exit 2
}

kind=${1:-}
program=
case $kind:$# in
deb:3 | plain:3 | dist:3 | tree:3)
    program=$2
    to=$3
    [ -f "$program" ] && [ -x "$program" ] || give_usage
    ;;
sums:2) to=$2 ;;
*) give_usage ;;
esac
[ -z "$program" ] || program=$(realpath -- "$program")
mkdir -p -- "$to"
to=$(realpath -- "$to")
CDPATH='' cd -- "$(dirname -- "$0")/../.."

work=$(mktemp -d)
trap 'rm -rf "$work"' EXIT
trap 'exit 2' HUP INT TERM

# The files of these names that are kept: those that git knows, or all of them where the sources have no git.
kept() {
    if [ -e .git ]; then
        git ls-files -- "$@"
    else
        find "$@" -type f | sort
    fi
}

# Copies files that are kept to a folder; a script stays one that can be run.
copy_kept() {
    local folder=$1 name mode
    shift
    kept "$@" | while IFS= read -r name; do
        mode=644
        [ ! -x "$name" ] || mode=755
        install -D -m "$mode" "$name" "$folder/$name"
    done
}

# Lays out all files below a folder: the program's and those of the pages; and the module for Python in that folder.
lay_out() {
    local root=$1 python=$2 pages=$1/share/doc/edfclaim name
    install -D -m 755 "$program" "$root/bin/edfclaim"
    install -D -m 755 extras/edfclaim-look "$root/bin/edfclaim-look"
    install -D -m 644 extras/edfclaim.py "$python/edfclaim.py"
    install -D -m 644 extras/edfclaim.bash-completion "$root/share/bash-completion/completions/edfclaim"
    install -d "$root/share/man/man1"
    for name in edfclaim edfclaim-look; do
        gzip -9 -n <"docs/$name.1" >"$root/share/man/man1/$name.1.gz"
    done
    for name in README.md CHANGELOG.md THIRD-PARTY.md LICENSE-MIT LICENSE-APACHE; do
        install -D -m 644 "$name" "$pages/$name"
    done
    copy_kept "$pages" docs examples
    rm -f "$pages"/docs/*.1
    tools/gate/links.py --pack "$pages" "extras/edfclaim.py=$python/edfclaim.py"
}

# The files of a Debian package below a folder. There Python has one place.
tree_of() {
    lay_out "$1/usr" "$1/usr/lib/python3/dist-packages"
    sed -i '1s:^#!/usr/bin/env python3$:#!/usr/bin/python3:' "$1/usr/bin/edfclaim-look"
}

# The digests of all files below a folder, but those of a name, by a command.
sums_of() {
    (cd -- "$1" && find . -type f ! -path './DEBIAN/*' ! -name "$3" -print0 | sort -z | xargs -0 "$2" | sed 's:  \./:  :')
}

# Writes the checksums of a Debian package below a folder.
write_sums() {
    sums_of "$1" sha256sum SHA256SUMS >"$work/sums"
    install -m 644 "$work/sums" "$1/usr/share/doc/edfclaim/SHA256SUMS"
}

# The size of what is installed, in units of 1024 bytes, each file and each folder rounded up. The folder DEBIAN is counted
# without what is in it, as debhelper has it.
size_of() {
    find "$1" -path "$1/DEBIAN/*" -prune -o -printf '%y %s\n' | awk '$1 == "f" { all += int(($2 + 1023) / 1024); next } { all++ } END { print all }'
}

# Gives all files the one time.
set_times() {
    find "$1" -exec touch --no-dereference --date="@$time" {} +
}

# The value of a field of debian/control, the first of its name.
field() {
    sed -n "s/^$1: //p" debian/control | head -n 1
}

# Whether debhelper is on this machine, as new as debian/control asks.
has_debhelper() {
    local there
    command -v dh >/dev/null || return 1
    there=$(dpkg-query --show --showformat='${Version}' debhelper 2>/dev/null) || return 1
    dpkg --compare-versions "$there" ge "$(sed -n 's/^Build-Depends:.*debhelper-compat (= \([0-9]*\)).*/\1/p' debian/control)"
}

pack_by_debhelper() {
    local name=$1 copy=$work/copy
    mkdir "$copy"
    kept . | tar --create --files-from=- | tar --extract --directory="$copy"
    if ! (cd -- "$copy" && unset DEB_BUILD_OPTIONS DEB_BUILD_PROFILES DH_OPTIONS DH_INTERNAL_OPTIONS &&
        EDFCLAIM=$program debian/rules binary) >"$work/log" 2>&1; then
        tail -n 20 "$work/log" >&2
        give_up "debhelper doesn't pack it"
    fi
    mv -- "$work/$name" "$to/$name"
}

pack_plain() {
    local name=$1 root=$work/root doc=$work/root/usr/share/doc/edfclaim
    tree_of "$root"
    install -m 644 debian/copyright "$doc/copyright"
    gzip -9 -n <debian/changelog >"$doc/changelog.gz"
    install -D -m 644 debian/edfclaim.lintian-overrides "$root/usr/share/lintian/overrides/edfclaim"
    write_sums "$root"
    mkdir "$root/DEBIAN"
    sums_of "$root" md5sum md5sums >"$root/DEBIAN/md5sums"
    {
        echo "Package: $(field Package)"
        echo "Version: $version"
        echo "Architecture: $(field Architecture)"
        echo "Maintainer: $(field Maintainer)"
        echo "Installed-Size: $(size_of "$root")"
        echo "Depends: $(field Depends | sed 's/, \${misc:Depends}$//')"
        echo "Suggests: $(field Suggests)"
        echo "Section: $(field Section)"
        echo "Priority: $(field Priority)"
        sed -n '/^Description:/,$p' debian/control
    } >"$root/DEBIAN/control"
    set_times "$root"
    dpkg-deb --root-owner-group -Zgzip --build "$root" "$work/$name" >/dev/null
    mv -- "$work/$name" "$to/$name"
}

pack_deb() {
    local name=edfclaim_${version}_amd64.deb
    command -v dpkg-deb >/dev/null || give_up "no dpkg-deb on this machine"
    if [ "$kind" = deb ] && has_debhelper; then
        pack_by_debhelper "$name"
    else
        pack_plain "$name"
    fi
    echo "$to/$name"
}

pack_dist() {
    local name=edfclaim-$version-linux-x86-64
    lay_out "$work/$name" "$work/$name/lib"
    sums_of "$work/$name" sha256sum SHA256SUMS >"$work/sums"
    install -m 644 "$work/sums" "$work/$name/SHA256SUMS"
    set_times "$work/$name"
    tar --create --directory="$work" --format=ustar --sort=name --mtime="@$time" --owner=root:0 --group=root:0 --numeric-owner "$name" |
        gzip -9 -n >"$work/$name.tar.gz"
    (cd -- "$work" && sha256sum "$name.tar.gz") >"$work/SHA256SUMS"
    mv -- "$work/$name.tar.gz" "$work/SHA256SUMS" "$to/"
    echo "$to/$name.tar.gz"
}

case $kind in
sums)
    write_sums "$to"
    exit 0
    ;;
tree)
    tree_of "$to"
    exit 0
    ;;
esac

time=${SOURCE_DATE_EPOCH:-$(git log -1 --format=%ct 2>/dev/null || true)}
[[ $time =~ ^[0-9]+$ ]] || give_up "there is no last commit: SOURCE_DATE_EPOCH has to say the time of the files"
export SOURCE_DATE_EPOCH=$time

said=$("$program" --version) || give_up "the program doesn't run"
[[ $said =~ ^edfclaim\ ([0-9]+\.[0-9]+\.[0-9]+)$ ]] || give_up "the program says another version: $said"
version=${BASH_REMATCH[1]}
packed=$(sed -n '1s/^edfclaim (\([^)]*\)) .*/\1/p' debian/changelog)
[ "$version" = "$packed" ] || give_up "the program says version $version, and debian/changelog $packed"
glibc=$(sed -n 's/^Depends:.*libc6 (>= \([0-9.]*\)).*/\1/p' debian/control)
newest=$( (grep -aoE 'GLIBC_2\.[0-9]+' "$program" || true) | sed 's/GLIBC_//' | cat - <(echo "$glibc") | sort -V | tail -n 1)
[ "$newest" = "$glibc" ] || give_up "the program needs glibc $newest, and not $glibc"

case $kind in
dist) pack_dist ;;
*) pack_deb ;;
esac
