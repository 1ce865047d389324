# shellcheck shell=bash
# What the benchmarks share, for bash scripts to source at the root of the repository.

# shellcheck disable=SC2034  # for the scripts that source this one
program=./crates/rvfleet/out/rvfleet
work=$(mktemp -d)
trap 'rm -rf "$work"' EXIT

give_up() {
    echo "bench: $*" >&2
    exit 1
}

# Build the program if it is missing, and the tool that times it.
prepare() {
    ./rvfleet --help >"$work/warm"
    local compiler
    for compiler in gcc clang cc; do
        if command -v "$compiler" >"$work/found"; then
            "$compiler" -O2 -o "$work/timed" bench/tools/timed.c
            return
        fi
    done
    give_up "gcc or clang not found"
}

# Time COUNT runs of a program, one after another, under a name. Each must end with STATUS. Their output goes to NAME.report.
#   measure NAME COUNT STATUS PROGRAM [WORD...]
measure() {
    local name=$1
    shift
    "$work/timed" "$work/$name.times" "$@" >"$work/$name.report" 2>&1 ||
        give_up "$name: $(tail -n 1 "$work/$name.report")"
}

# Print the smallest value of a column over the rounds of a name, in seconds: column 1 is the clock, and 2 is processor time.
least() {
    cut -d ' ' -f "$1" "$work/$2.times" | sort -g | head -n 1
}

# Print the peak memory over the rounds of a name, in KB.
peak() {
    cut -d ' ' -f 3 "$work/$1.times" | sort -g | tail -n 1
}

# Make an ELF file; checks/lib/images.py explains the arguments.
image() {
    python3 checks/lib/images.py "$@"
}

# Print the ELF file of a flat image, whose entry is its first byte.
elf_of() {
    image --of "$1"
}
