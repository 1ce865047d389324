#!/usr/bin/env bash
# What one crate may cite of another: of its proofs the file proofs/Public.antt alone, and of its definitions what contracts of
# public functions cite, so nothing of specs/Inside/ or of files named ..Inside. And no crate of the programs takes a machine's steps by
# `Machine::step`: it would be a second caller of the hot loop, and each run would take twice as long (docs/PERFORMANCE.md). Fails where a
# file does.
#   checks/commands/doors.sh
set -euo pipefail
cd "$(dirname "$0")/../.."

found=0
for crate in crates/*; do
    name=${crate#crates/}
    files=()
    for folder in src specs proofs; do
        [ ! -d "$crate/$folder" ] || files+=("$crate/$folder")
    done
    # A crate that is gone may have left what was built of it.
    [ ${#files[@]} != 0 ] || continue
    cited=$(grep -rnE 'Rattle\.rv[a-z_]*\.(proofs\.|specs\.[A-Za-z.]*Inside)' "${files[@]}" --include='*.rt' --include='*.antt' |
        grep -vE "Rattle\.$name\.|Rattle\.rv[a-z_]*\.proofs\.Public\." || true)
    if [ -n "$cited" ]; then
        printf '%s\n' "$cited" >&2
        found=1
    fi
done
if [ "$found" != 0 ]; then
    echo 'checks/commands/doors.sh: these lines cite what another crate keeps to itself (its proofs/Public.antt may hand it on)' >&2
    exit 1
fi
steps=$(grep -rnE '\.step\(\)' crates/*/src --include='*.rt' | grep -vE '^crates/(rv_machine|[a-z_]*_tests)/' || true)
if [ -n "$steps" ]; then
    printf '%s\n' "$steps" >&2
    echo 'checks/commands/doors.sh: these lines take a step of a machine by itself: a run of one step leaves the hot loop its one caller' >&2
    exit 1
fi
echo 'checks/commands/doors.sh: each crate cites the others by their doors, and the hot loop has one caller'
