#!/usr/bin/env bash
# Refuses each growth of the programs' memory in turn, the first, the second and so on until a run meets none, and
# prints how many growths each run has. Every run with a refused growth must end with status 3, a line on standard error
# that says so, an output that is a beginning of the right text, and no report file. Some growths the
# toolchain's libraries do without: one of its TOML for a number that is written with `_`, and those of its edit distance
# while the nearest key is looked for. Such a run must be a whole one.
#   checks/commands/growths.sh            by a shim, each growth; by the toolchain, the first, a middle and the last one of each run
#   checks/commands/growths.sh --quick    by the shim alone
set -euo pipefail
cd "$(dirname "$0")/../.."
# shellcheck source=checks/lib/fixtures.bash
source checks/lib/fixtures.bash

# As many threads as a run of five jobs starts where its words ask for no number.
processors=$(nproc)
[ "$processors" -le 5 ] || processors=5

# The words of each run, the file that is its standard input, its status, its right text, how many growths are done
# without, and how many threads it starts: one for each worker, but no more than there are pieces of the list's five jobs.
runs=(
    'rvfleet raw --budget 3|first.bin|0|raw.text|0|0'
    'rvfleet one a.elf --budget 3|/dev/null|0|one.text|0|0'
    'rvfleet run list.toml --workers 1|/dev/null|0|list.text|0|1'
    'rvfleet run list.toml --workers 4 --group 2|/dev/null|0|list.text|0|3'
    'rvfleet run underscored.toml|/dev/null|0|underscored.text|1|1'
    "rvtest run list.toml|/dev/null|1|list.shown|0|$processors"
    'rvtest run list.toml --workers 1|/dev/null|1|list.shown|0|1'
    'rvtest run list.toml --workers 4 --group 2 --report report|/dev/null|1|list.shown|0|3'
    'rvtest run list.toml --workers 1 --counts report|/dev/null|1|list.shown|0|1'
    'rvtest check list.toml|/dev/null|2|list.checked|0|0'
    'rvtest check faulty.toml|/dev/null|2|faulty.checked|69|0'
    'rvtest explain list.toml fault --last 1|/dev/null|1|fault.explained|0|0'
    'rvtest merge one.part two.part --report report|/dev/null|1|parts.shown|0|0'
    'rvtest diff list.text underscored.text|/dev/null|1|differences|0|0'
    'rvtest show list.text --junit report|/dev/null|1|report.shown|0|0'
)

# What each program says where memory, or a thread, is wanting.
declare -A wanting=(
    [rvfleet]='out of memory,no worker'
    [rvtest]='out of memory,a thread could not be started'
)

crates=$PWD/crates
cd "$work"

# The two parts of the list's report, what is shown where they are merged, and what of the whole and of its differences.
sed -n '/^job [24] /,/^verdict/p' list.text >two.part
sed -n '/^job [135] /,/^verdict/p' list.text >one.part
echo 'part 3 of 5 shard 1/2 stamp growths' >>one.part
echo 'part 2 of 5 shard 2/2 stamp growths' >>two.part
tail -n 1 list.shown >parts.shown
{
    grep -v '^ ' list.shown | sed 's/^\(FAIL short: refused short-header\):.*/\1/'
    printf '%s\n' 'most steps:' '  9 sign' '  2 pass' '  2 budget' '  0 fault' '  0 short'
} >report.shown
{
    printf -- '- %s\n' pass fault budget short sign
    printf '%s\n' '+ underscored' '6 of 6 jobs differ: 5 gone, 1 new, 0 changed'
} >differences
# The job ends at its first instruction, with no register set.
{
    head -n 2 list.shown
    echo '     ended at 80000000'
    for register in zero ra sp gp tp t0 t1 t2 s0 s1 a{0..7} s{2..11} t{3..6}; do
        printf '     %-4s  00000000\n' "$register"
    done
    printf '     80000000  %-20s  %-8s  %-24s  breakpoint\n' '' 9002 c.ebreak
} >fault.explained

# Runs the program with a growth refused. Its streams go to the files out and err, its status to `status`, and the file
# met is made where it came to that growth.
run_refused() {
    rm -f met report started
    status=0
    LD_PRELOAD=$shim REFUSED_GROWTH=$1 GROWTH_MET=met THREADS_STARTED=started "./$program" "${words[@]:1}" <"$input" >out 2>err || status=$?
}

# The same by the toolchain, which runs the program in a folder with copies of the files. It leaves the streams in a folder of its own.
try_refused() {
    local file data=()
    for file in *.elf *.toml *.part *.text; do
        data+=(--data "$file=$work/$file")
    done
    status=0
    (cd "$crates/$program" && rt try --fail-alloc "$1" "${data[@]}" -- "${words[@]:1}") <"$input" >"$streams/out" 2>"$streams/said" || status=$?
    grep "^$program: " "$streams/said" >"$streams/err" || true
}

# Whether the run ended as one must where memory is wanting.
is_refused() {
    local said
    said=$(<"$streams/err")
    [ "$status" = 3 ] && [[ $said = "$program: "* && ",${wanting[$program]}," = *",${said#"$program: "},"* ]] &&
        cmp -s -n "$(stat -c %s "$streams/out")" "$streams/out" "$text" && [ ! -e "$streams/report" ] && [ ! -e "$streams/report.new" ]
}

# Whether the run ended as one where nothing is wanting.
is_whole() {
    [ "$status" = "$ended" ] && [ ! -s "$streams/err" ] && cmp -s "$streams/out" "$text"
}

# Says how a run ended, and ends the check.
fail_run() {
    fail "${words[*]}: $1: status $status, standard error '$(<"$streams/err")', output:"$'\n'"$(<"$streams/out")"
}

# Refuses each growth of a run in turn. Gives their number in `growths`, in `starts` how many of them stood in the start of
# a thread, and in `repeats` how many were done without. The last run, in which none is refused, has to start as many threads as its
# words ask for.
sweep() {
    local started
    growths=0
    starts=0
    repeats=0
    while run_refused $((growths + 1)) && [ -e met ]; do
        growths=$((growths + 1))
        if is_whole && [ "$repeats" -lt "$again" ]; then
            repeats=$((repeats + 1))
        elif ! is_refused; then
            fail_run "growth $growths refused"
        fi
        [ "$(<err)" != "$program: ${wanting[$program]#*,}" ] || starts=$((starts + 1))
    done
    is_whole || fail_run 'no growth refused'
    [ "$growths" -gt 0 ] || fail "${words[*]}: the shim saw no growth"
    started=$(stat -c %s started)
    [ "$started" = "$threads" ] || fail "${words[*]}: $started threads were started, not $threads"
    [ "$repeats" = "$again" ] || fail "${words[*]}: $repeats growths were done without, not $again"
    printf '%s: %s growths, each refused in turn (%s in the start of a thread, %s done without)\n' \
        "${words[*]}" "$growths" "$starts" "$repeats"
}

# Whether the toolchain's run comes to a growth, which must then end it as the shim's.
is_met_by_toolchain() {
    try_refused "$1"
    if [ $((starts + again)) != 0 ] && is_whole; then
        return 1
    fi
    is_refused || fail_run "growth $1 refused by the toolchain"
    printf '%s: growth %s refused by the toolchain too\n' "${words[*]}" "$1"
}

# Asks the toolchain of the first, a middle and the last growth. It sees none that the C library takes for a thread, so
# its last one has a lower number where threads are started.
ask_toolchain() {
    local growth last=$growths
    for growth in 1 $(((growths + 1) / 2)); do
        is_met_by_toolchain "$growth" || fail_run "growth $growth is not met by the toolchain"
    done
    until is_met_by_toolchain "$last"; do
        last=$((last - 1))
        [ "$last" -ge $((growths - 2 * starts)) ] || fail_run "the toolchain has fewer than $last growths"
    done
}

# Asks the toolchain beside what follows, as many runs at once as there are lanes: each try compiles the program anew.
ask_beside() {
    while [ "$(jobs -r | wc -l)" -ge "$(lanes)" ]; do
        wait -n || true
    done
    streams=$(mktemp -d -p "$work")
    beside+=("$streams")
    (
        ask_toolchain
        : >"$streams/passed"
    ) &
    streams=.
}

streams=.
beside=()
for run in "${runs[@]}"; do
    IFS='|' read -r line input ended text again threads <<<"$run"
    read -ra words <<<"$line"
    program=${words[0]}
    sweep
    [ "${1:-}" = --quick ] || ask_beside
done
wait
for streams in "${beside[@]}"; do
    [ -e "$streams/passed" ] || exit 1
done
