#!/usr/bin/env bash
# Runs each program on its worked run: in a folder with the files of crates/NAME/data, on the words of crates/NAME/args, one a line, and
# the standard input of crates/NAME/stdin it must print crates/NAME/stdout, and end with the status in crates/NAME/status (absent: 0).
#   checks/commands/worked.sh
set -euo pipefail
cd "$(dirname "$0")/../.."
# shellcheck source=launch.bash
source ./launch.bash
top=$PWD
work=$(mktemp -d)
trap 'rm -rf "$work"' EXIT

for name in "${programs[@]}"; do
    crate=$top/crates/$name
    path=$(program "$name") || { echo "checks/commands/worked.sh: $name was not built" >&2; exit 1; }
    mkdir "$work/$name"
    cd "$work/$name"
    [ ! -d "$crate/data" ] || cp -r "$crate/data/." .
    mapfile -t words <"$crate/args"
    wanted=$(cat "$crate/status" 2>/dev/null || echo 0)
    status=0
    "$path" "${words[@]}" <"$crate/stdin" >../out 2>../err || status=$?
    if [ "$status" != "$wanted" ] || ! cmp -s ../out "$crate/stdout"; then
        echo "checks/commands/worked.sh: $name ${words[*]}: status $status, expected $wanted: $(<../err)" >&2
        diff -u "$crate/stdout" ../out >&2 || true
        exit 1
    fi
    echo "the worked run of $name: status $status"
done
