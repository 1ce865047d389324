#!/usr/bin/env bash
# Whether `programs/update --check` is red where programs/ is not what was built: in a small tree of its own, whose programs are two of
# this machine's. It needs a C compiler and binutils, as the gate does; run by hand.
#   checks/commands/programs.sh
set -euo pipefail
cd "$(dirname "$0")/../.."
top=$PWD
work=$(mktemp -d)
trap 'rm -rf "$work"' EXIT

fail() {
    echo "checks/commands/programs.sh: $*" >&2
    exit 1
}

# A tree of two crates, which are built, and whose programs are in programs/.
make_tree() {
    rm -rf "$1"
    mkdir -p "$1"/{checks/lib,programs,crates/{rvfleet,rvtest}/{src,out}}
    cd "$1"
    cp "$top"/{launch.bash,HANDLES} .
    cp "$top/programs/update" programs/
    cp "$top"/checks/lib/{shims.bash,refuse_growth.c,terminal.c} checks/lib/
    printf '%s\n' 'rvfleet:' 'rvtest:' >crates.txt
    touch crates/{rvfleet,rvtest}/src/main.rt
    cp "$(type -P true)" crates/rvfleet/out/rvfleet
    cp "$(type -P cat)" crates/rvtest/out/rvtest
    # shellcheck source=launch.bash
    (source ./launch.bash && stamp_programs "$(sources)")
    programs/update >/dev/null
}

# Runs the comparison in the tree, which must end with a status and say a text.
#   compares NAME STATUS TEXT
compares() {
    local name=$1 wanted=$2 text=$3 status=0
    programs/update --check >"$work/out" 2>&1 || status=$?
    if [ "$status" != "$wanted" ] || ! grep -qF -- "$text" "$work/out"; then
        fail "$name: status $status, expected $wanted and '$text': $(<"$work/out")"
    fi
    echo "$name: status $status, $(tail -n 1 "$work/out")"
}

# Changes the byte at a place of a file.
change_byte() {
    printf '\x5a' | dd of="$1" bs=1 seek="$2" conv=notrunc status=none
}

make_tree "$work/tree"
compares 'what was built' 0 'programs/ is what these sources give'
cp -r programs "$work/kept"
make_tree "$work/a/longer/path/of/another/tree"
cp "$work"/kept/* programs/
compares 'the programs of a tree under another path' 0 'programs/ is what these sources give'

while IFS='|' read -r text change; do
    make_tree "$work/tree"
    eval "$change"
    compares "$change" 1 "$text"
done <<'END'
programs/rvtest is not what these sources give: run programs/update, and commit it|change_byte programs/rvtest 4000
programs/rvfleet is not what these sources give|rm programs/rvfleet
programs/terminal.so is not of checks/lib/terminal.c|echo >>checks/lib/terminal.c
programs/refuse_growth.so is not of checks/lib/refuse_growth.c|change_byte programs/refuse_growth.so 4000
programs/BUILT does not say what was built|sed -i 's/^sources ./sources x/' programs/BUILT
programs/BUILT does not say what was built|sed -i 's/^glibc .*/glibc 2.1/' programs/BUILT
crates/rvfleet/out has no rvfleet of these sources|echo >>crates/rvtest/src/main.rt
crates/rvtest/out has no rvtest of these sources|change_byte crates/rvtest/out/rvtest 4000
END
