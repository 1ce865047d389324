#!/usr/bin/env bash
# Runs both programs over words, files and streams that fail: the status, the line on standard error and the output must
# be the right ones. What rvtest does beyond that is `checks/commands/runner.sh`'s.
set -euo pipefail
cd "$(dirname "$0")/../.."
# shellcheck source=checks/lib/fixtures.bash
source checks/lib/fixtures.bash
cd "$work"

report '1 one' 'refused image-unreadable' 0 none >unreadable.text
: >none
mkdir folder
cp a.elf closed.elf
cp list.toml closed.toml
chmod 000 closed.elf closed.toml
chmod 755 . rvfleet rvtest

# The user whom file modes bind: another one, where this is root.
user=()
[ "$(id -u)" != 0 ] || user=(setpriv --reuid=65534 --regid=65534 --clear-groups)

# Runs a program with the redirections of the call, and gives its status in `status`.
run_program() {
    : >out
    : >err
    status=0
    "${user[@]}" "./$1" "${@:2}" || status=$?
}

run() {
    run_program rvfleet "$@"
}

# Runs it with its first growth refused.
run_refused() {
    local user=("${user[@]}" env LD_PRELOAD="$shim" REFUSED_GROWTH=1 GROWTH_MET=met)
    run "$@"
}

# Fails where the run that this names ended with another status, line on standard error, or output.
ends() {
    local name=$1 wanted=$2 line=$3 text=$4
    if [ "$status" != "$wanted" ] || [ "$(<err)" != "$line" ] || ! cmp -s out "$text"; then
        fail "$name: status $status, standard error '$(<err)', output:"$'\n'"$(<out)"
    fi
    printf '%s: status %s%s\n' "$name" "$status" "${line:+, $line}"
}

run raw --budget 3 <first.bin >out 2>err
ends 'nothing fails' 0 '' raw.text

# Each status by the real process; 2 and 3 come below too.
run run failing.toml >out 2>err
ends 'a job that fails' 1 '' failing.text
run raw --budget 0 <first.bin >out 2>err
ends 'a budget of 0' 2 'rvfleet: bad words' none
run one a.elf --budget 3 --input-hex '' >out 2>err
ends 'an empty word' 0 '' one.text

run_refused raw --budget 3 <first.bin >out 2>err
ends 'words without memory' 3 'rvfleet: out of memory' none
run one $'\xff' --budget 3 >out 2>err
ends 'a word that is no UTF-8' 2 'rvfleet: bad words' none

run one folder --budget 3 >out 2>err
ends 'a folder as the image' 0 '' unreadable.text
run one closed.elf --budget 3 >out 2>err
ends 'an image without leave to read it' 0 '' unreadable.text
run one missing.elf --budget 3 >out 2>err
ends 'an image that is missing' 0 '' unreadable.text

for list in folder closed.toml missing.toml; do
    run run "$list" >out 2>err
    ends "$list as the list" 3 'rvfleet: list unreadable' none
done

run raw --budget 3 <&- >out 2>err
ends 'standard input closed' 3 'rvfleet: read failed' none
run raw --budget 3 <folder >out 2>err
ends 'a folder as standard input' 3 'rvfleet: read failed' none

for words in 'raw --budget 3' 'one a.elf --budget 3' '--help'; do
    # shellcheck disable=SC2086 # several words
    run $words <first.bin >&- 2>err
    ends "$words, standard output closed" 3 'rvfleet: write failed' none
    # shellcheck disable=SC2086
    run $words <first.bin >/dev/full 2>err
    ends "$words, standard output full" 3 'rvfleet: write failed' none
done

run raw --budget 3 <first.bin >out 2>&-
ends 'nothing fails, standard error closed' 0 '' raw.text
run raw --budget 3 <first.bin >/dev/full 2>&-
ends 'standard output full, standard error closed' 3 '' none
run raw --budget 0 <first.bin >out 2>&-
ends 'bad words, standard error closed' 2 '' none
run one a.elf --budget 3 >out 2>&-
ends 'an image, standard error closed' 0 '' one.text

# The other program: a job that needs what it may not read, a word of no text, and want of memory.
cat >closed_image.toml <<'END'
[[job]]
name = "closed"
image = "closed.elf"
budget = 3
END
{
    echo 'FAIL closed: refused image-unreadable: closed.elf: Permission denied'
    echo '1 job: 0 passed, 1 failed (1 refused), 0 steps'
} >closed.shown
run_program rvtest run closed_image.toml >out 2>err
ends 'rvtest, an image without leave to read it' 1 '' closed.shown
run_program rvtest run $'\xff' >out 2>err
ends 'rvtest, a word that is no UTF-8' 2 'rvtest: an argument is not valid UTF-8' none

# A pipe that nobody reads any more, as behind `head`: rvtest ends as a program that SIGPIPE ends, and says nothing. Other failures have
# their message still, and a reader of standard error who is gone changes nothing.
mkfifo pipe
exec 4<>pipe
exec 5>pipe
exec 4<&-
./rvtest run failing.toml --shard 1/1 --quiet --report part >out 2>err || true
for words in '--help' 'run closed_image.toml' 'list closed_image.toml' 'check closed_image.toml' 'explain closed_image.toml closed' \
    'show part' 'diff part part'; do
    # shellcheck disable=SC2086 # several words
    run_program rvtest $words >&5 2>err
    ends "rvtest $words, closed by its reader" 141 '' none
done
# Here results stand on standard error.
for words in 'run closed_image.toml --report -' 'run closed_image.toml --junit -' 'merge part' 'show part --junit -'; do
    # shellcheck disable=SC2086
    run_program rvtest $words >&5 2>err
    if [ "$status" != 141 ] || grep -q ^rvtest: err; then
        fail "rvtest $words, closed by its reader: status $status, standard error '$(<err)'"
    fi
    echo "rvtest $words, closed by its reader: status 141"
done
run_program rvtest list closed_image.toml >/dev/full 2>err
ends 'rvtest, standard output full' 3 'rvtest: standard output: write failed' none
run_program rvtest list missing.toml >&5 2>err
ends 'rvtest, no list, closed by its reader' 3 'rvtest: missing.toml: No such file or directory' none
run_program rvtest run closed_image.toml >out 2>&5
ends 'rvtest, standard error closed by its reader' 1 '' closed.shown
exec 5>&-

user+=(env LD_PRELOAD="$shim" REFUSED_GROWTH=1 GROWTH_MET=met)
run_program rvtest run closed_image.toml >out 2>err
ends 'rvtest, words without memory' 3 'rvtest: out of memory' none

# What the disk is asked for, in order: two files of earlier runs give way, both files are handed to the disk, and then both are renamed, and
# the directory is handed to it behind each.
cat >passing.toml <<'END'
[[job]]
name = "pass"
image = "a.elf"
budget = 3
expect_exit = 5
END
chmod 777 .
LD_PRELOAD="$shim" FILES_CHANGED=changed ./rvtest run passing.toml --report r --junit j >out 2>err
[ "$(<changed)" = uussrsrs ] || fail "two files: the disk was asked for $(<changed), and not for uussrsrs"
echo 'two files: both are handed to the disk before either is renamed'

# A report and a JUnit file that lead to one place: neither is written, and what stands there stays.
ln -sf x link
for junit in ./x link; do
    echo old >x
    status=0
    ./rvtest run passing.toml --report x --junit "$junit" >out 2>err || status=$?
    if [ "$status, $(<err)" != "2, rvtest: $junit: another output of this command is the same file" ] || [ "$(<x)" != old ] || [ -e x.new ]; then
        fail "--report x --junit $junit: status $status, standard error '$(<err)', x has '$(<x)'"
    fi
done
echo 'two files that lead to one place: refused'

# A report in a file, whose rows go there as they come, is byte for byte the one that goes to standard output at the end.
for words in '' '--shard 2/3' '--only fault' '--match s' '--stop-after 1' '--stop-after 2 --group 1' '--junit j' '--workers 1 --group 1'; do
    # shellcheck disable=SC2086 # several words
    ./rvtest run list.toml $words --report r >out 2>err || true
    # shellcheck disable=SC2086
    ./rvtest run list.toml $words --report - >out 2>err || true
    cmp -s r out || fail "run list.toml $words: the report in a file is another one than that on standard output"
done
echo 'reports in files are those on standard output'

# A run that is killed on its way leaves behind FILE.new the rows of the jobs that were done, and no JUnit file; what stood at FILE stays.
image '0000006F' >spin.elf
cat >killed.toml <<'END_OF_LIST'
[[job]]
name = "pass"
image = "a.elf"
budget = 3
expect_exit = 5

[[job]]
name = "fault"
image = "f.elf"
budget = 10

[[job]]
name = "spin"
image = "spin.elf"
budget = 1_000_000_000
END_OF_LIST
{
    row '1 pass' 'exit 5' 2 pass
    row '2 fault' 'fault breakpoint pc=80000000 value=00000000' 0 none
} >killed.rows
for words in --quiet '--shard 1/1' '--match .' '--junit j'; do
    rm -f j r.new
    echo old >r
    # shellcheck disable=SC2086 # several words
    ./rvtest run killed.toml $words --workers 1 --group 1 --report r >out 2>err &
    run=$!
    for _ in {1..100}; do
        if cmp -s r.new killed.rows; then break; fi
        sleep 0.02
    done
    kill -KILL "$run" || fail "run killed.toml $words: it was over before it was killed"
    wait "$run" 2>/dev/null || true
    if ! cmp -s r.new killed.rows || [ "$(<r)" != old ] || [ -e j ]; then
        fail "run killed.toml $words, killed: r.new has '$(<r.new)', r has '$(<r)'"
    fi
done
echo 'a run that is killed: its rows are behind FILE.new'
