#!/usr/bin/env bash
# Checks that each crate cites of another crate's proofs the module ForCallers alone, and of one that
# stands lower.
#
# usage: tools/gate/imports.sh
#
# It lists each line that cites another, and its last line is 'N passed, M failed': one for each crate.
set -uo pipefail

cd -- "$(dirname -- "$0")/../.." || exit 2
passed=0
failed=0
for folder in crates/*/; do
    crate=$(basename "$folder")
    parts=()
    for part in src specs proofs; do
        [ -d "$folder$part" ] && parts+=("$folder$part")
    done
    # every word of the proofs of a crate, but for this one's own and for those of ForCallers
    cited=$(grep -rnoE 'Rattle\.edf[a-z_]*\.proofs\.[A-Za-z]+' --include='*.rt' --include='*.antt' "${parts[@]}" |
        grep -vE "Rattle\.$crate\.proofs\." | grep -vE '\.proofs\.ForCallers$')
    if [ -z "$cited" ]; then
        passed=$((passed + 1))
    else
        failed=$((failed + 1))
        echo "$cited"
    fi
done
echo "$passed passed, $failed failed"
[ "$failed" -eq 0 ]
