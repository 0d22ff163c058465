#!/usr/bin/env bash
# Checks many nights by `edfclaim receipt`, one at a time, and makes one table of the answers.
#
# usage: nights.sh rows TABLE                                    prints the words of each night, each with a NUL behind it
#        nights.sh check ANSWERS NIGHT ORIGINAL EXPORT CLAIM     checks a night that has no answer yet
#        nights.sh table TABLE ANSWERS                           prints the table of the answers
#
# TABLE is a text of lines with tabs between the words: the first line is `night original export claim`, and each
# further one is a night. A night's name has letters, digits, `.`, `_` and `-`, begins with a letter, a digit or `_`, and
# stands once. A byte order mark of UTF-8 in front is skipped. Where the first line ends as on Windows, by CR LF, the
# others may, too.
#
# The answer of a night is the file ANSWERS/NIGHT.txt: the night's line of the table, and the receipt. It is written to
# a folder of its own in ANSWERS and moved once it is whole. A Yes and a No are answers, with status 0. Where there is no
# answer, ANSWERS/NIGHT.refused says why, the status is 1, and the night is checked again the next time. So it is where
# one of its files is newer than the answer, or its line of the table is another. EDFCLAIM is the program, where it isn't
# found by its name.
set -euo pipefail
export LC_ALL=C

# Ends with what is wrong.
give_up() {
    echo "$0: $1" >&2
    exit 2
}

# Whether it can be the name of a night.
is_name() {
    case $1 in
    '' | [!A-Za-z0-9_]* | *[!A-Za-z0-9._-]*) return 1 ;;
    esac
}

# The words of all nights, once the whole table is in order.
print_rows() {
    TABLE=$1 awk -F '\t' '
        function wrong(why) { print ENVIRON["TABLE"] ", line " NR ": " why >"/dev/stderr"; failed = 1; exit 2 }
        NR == 1 && sub(/^(\376\377|\377\376)/, "") { wrong("a table in UTF-16: save it as UTF-8") }
        NR == 1 { sub(/^\357\273\277/, ""); by_two = sub(/\r$/, "") }
        NR == 1 && /\r/ { wrong("its lines end by CR alone: save it with LF or CR LF") }
        NR == 1 { if ($0 != "night\toriginal\texport\tclaim") wrong("not the words night, original, export, claim, with tabs between them"); next }
        sub(/\r$/, "") && !by_two { wrong("it ends by CR LF, and the first line by LF alone") }
        NF != 4 || $2 == "" || $3 == "" || $4 == "" { wrong("not four words with tabs between them") }
        $1 !~ /^[A-Za-z0-9_][A-Za-z0-9._-]*$/ { wrong("not the name of a night: " $1) }
        $1 in seen { wrong("the night stands twice: " $1) }
        { seen[$1]; rows[++count] = $0 }
        END {
            if (failed) exit 2
            for (at = 1; at <= count; at++) print rows[at]
        }' <"$1" | tr '\t\n' '\0\0'
}

# Whether the answer is that of this line of the table, and not older than these files.
is_answered() {
    local answer=$1 line=$2 file
    shift 2
    [ -e "$answer" ] && [ "$(head -n 1 "$answer")" = "$line" ] || return 1
    for file in "$@"; do
        if [ "$file" -nt "$answer" ]; then return 1; fi
    done
}

# Checks a night that has no answer yet.
check_night() {
    local answers=$1 night=$2 line status=0
    shift 2
    is_name "$night" || give_up "not the name of a night: $night"
    line=$(printf '%s\t%s\t%s\t%s' "$night" "$@")
    if is_answered "$answers/$night.txt" "$line" "$@"; then
        exit 0
    fi
    mkdir -p -- "$answers"
    rm -f -- "$answers/$night.txt"
    part=$(mktemp -d "$answers/.$night.XXXXXXXX")
    trap 'rm -rf -- "$part"' EXIT
    trap 'exit 1' HUP INT TERM
    printf '%s\n' "$line" >"$part/answer"
    "${EDFCLAIM:-edfclaim}" receipt "$@" >>"$part/answer" 2>"$part/refusal" || status=$?
    case "$status $(tail -n 1 "$part/answer")" in
    '0 YES '* | '1 NO '*)
        # on the disk before it has its name
        sync "$part/answer"
        mv -- "$part/answer" "$answers/$night.txt"
        rm -f -- "$answers/$night.refused"
        ;;
    *)
        if [ ! -s "$part/refusal" ]; then
            echo "status $status, and nothing was said" >"$part/refusal"
        fi
        mv -- "$part/refusal" "$answers/$night.refused"
        echo "$night: $(head -n 1 "$answers/$night.refused")" >&2
        exit 1
        ;;
    esac
}

# The table of the answers: a line for each night, in the order of the table of nights.
print_table() {
    local table=$1 answers=$2
    # a table that isn't in order is refused here
    print_rows "$table" >/dev/null
    print_rows "$table" | tr '\0' '\n' | paste - - - - | ANSWERS=$answers awk -F '\t' '
        function sum_in(text, name,    words) {
            if (split(text, words, " ") != 5 || words[1] != name || words[2] != "sha256" || words[4] != "bytes") return ""
            return length(words[3]) == 64 && words[3] ~ /^[0-9a-f]+$/ && words[5] ~ /^[0-9]+$/ ? words[3] : ""
        }
        BEGIN { OFS = "\t"; print "night", "status", "line", "original_sha256", "export_sha256", "claim_sha256" }
        {
            file = ENVIRON["ANSWERS"] "/" $1 ".txt"
            count = 0
            while ((getline text <file) > 0) lines[++count] = text
            close(file)
            original = sum_in(lines[3], "original"); export = sum_in(lines[4], "export"); claim = sum_in(lines[5], "claim")
            status = lines[6] ~ /^YES / ? 0 : lines[6] ~ /^NO [0-9]/ ? 1 : 2
            if (count == 6 && lines[1] == $0 && status < 2 && original != "" && export != "" && claim != "") {
                print $1, status, lines[6], original, export, claim
            } else {
                file = ENVIRON["ANSWERS"] "/" $1 ".refused"
                said = ""
                if ((getline text <file) > 0) said = text
                close(file)
                gsub(/[\t\r]/, " ", said)
                print $1, 2, said, "", "", ""
            }
            for (at in lines) delete lines[at]
        }'
}

case "$#${1:-}" in
2rows) print_rows "$2" ;;
6check)
    shift
    check_night "$@"
    ;;
3table) print_table "$2" "$3" ;;
*)
    sed -n 's/^# usage: /usage: /p; s/^#        nights/       nights/p' "$0" >&2
    exit 2
    ;;
esac
