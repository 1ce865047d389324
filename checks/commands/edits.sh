#!/usr/bin/env bash
# Tries the must-fail edits of crates, those of the gate and those of must-fail/: the prover must refuse each. It works on a copy, in which
# all edits of a crate stand in its folder.
#   checks/commands/edits.sh [CRATE..]      the edits of these crates, else of all: an hour for each hundred and more
set -euo pipefail
cd "$(dirname "$0")/../.."
for crate in "$@"; do
    [ -d "crates/$crate/must-fail" ] || [ -d "must-fail/$crate" ] || { echo "checks/commands/edits.sh: the crate '$crate' has no edits" >&2; exit 2; }
done
copy=$(mktemp -d)
trap 'rm -rf "$copy"' EXIT
git ls-files -z --cached --others --exclude-standard crates crates.txt HANDLES | while IFS= read -rd '' file; do
    [ ! -e "$file" ] || printf '%s\0' "$file"
done | xargs -0 cp --parents -t "$copy"
for folder in must-fail/*/; do
    mkdir -p "$copy/crates/$(basename "$folder")/must-fail"
    cp "$folder"*.edit "$copy/crates/$(basename "$folder")/must-fail"
done
cd "$copy"
rt must-fail "$@"
