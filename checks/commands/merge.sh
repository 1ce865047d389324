#!/usr/bin/env bash
# Runs lists as shards and merges their parts, by the built programs: the report must be byte for byte the one that rvfleet writes
# for the whole list, and the sum of the counts that of the list. A part cut at each byte is refused. A part with one byte changed is refused, or taken as the part that it
# then is. Each refusal is told with its file.
#   checks/commands/merge.sh
set -euo pipefail
cd "$(dirname "$0")/../.."
# shellcheck source=checks/lib/fixtures.bash
source checks/lib/fixtures.bash
here=$PWD
cd "$work"

# Runs a list's shard of a number, of so many, and keeps its part under a name.
shard() {
    local list=$1 number=$2 shards=$3 part=$4
    shift 4
    ./rvtest run "$list" --shard "$number/$shards" --report "$part" --quiet "$@" >shown 2>err || [ $? = 1 ] ||
        fail "shard $number/$shards of $list: $(<err)"
}

# Merges parts: the status, what went out and what was said are in `status`, `out` and `err`.
merge() {
    status=0
    ./rvtest merge "$@" >out 2>err || status=$?
}

# Fails where merging the parts does not give this text with this status.
merges() {
    local name=$1 wanted=$2 text=$3
    shift 3
    merge "$@"
    if [ "$status" != "$wanted" ] || ! cmp -s out "$text"; then fail "$name: status $status, $(<err)"; fi
    printf '%s: status %s\n' "$name" "$status"
}

# Fails where merging the parts is not refused with this line.
refuses() {
    local name=$1 line=$2
    shift 2
    merge "$@"
    if [ "$status" != 2 ] || [ -s out ] || [ "$(<err)" != "$line" ]; then
        fail "$name: status $status, standard error '$(<err)', output:"$'\n'"$(<out)"
    fi
    printf '%s: %s\n' "$name" "$line"
}

# Fails where the sum of tables of counts is not that of the whole list, byte for byte.
sums() {
    local name=$1
    shift
    ./rvtest counts "$@" >out 2>err || fail "$name: $(<err)"
    cmp -s out whole.counts || fail "$name: another table:"$'\n'"$(diff whole.counts out)"
    printf '%s: the table of the list\n' "$name"
}

# ---- a list of five jobs

for shards in 1 2 5 7; do
    for ((number = 1; number <= shards; number++)); do
        shard list.toml "$number" "$shards" "p$number-$shards" --stamp run-7 --counts "c$number-$shards" --stacks
    done
done
printf '%s\n' 'part 2 of 5 shard 2/2 stamp run-7' >last
tail -n 1 p2-2 | cmp -s - last || fail "the last line of a part: $(tail -n 1 p2-2)"
printf '%s\n' 'part 0 of 5 shard 6/7 stamp run-7' | cmp -s - p6-7 || fail 'a shard without a job'

merges 'one part' 1 list.text p1-1
merges 'two parts' 1 list.text p1-2 p2-2
merges 'two parts, the last one first' 1 list.text p2-2 p1-2
merges 'a part again' 1 list.text p2-2 p1-2 p2-2 p1-2
merges 'five parts' 1 list.text p3-5 p1-5 p5-5 p2-5 p4-5
merges 'seven parts' 1 list.text p1-7 p2-7 p3-7 p4-7 p5-7 p6-7 p7-7
merges 'seven parts, the last one first' 1 list.text p7-7 p1-7 p2-7 p3-7 p4-7 p5-7 p6-7
merges 'seven parts, backwards' 1 list.text p7-7 p6-7 p5-7 p4-7 p3-7 p2-7 p1-7
merges 'seven parts, turned by one' 1 list.text p2-7 p3-7 p4-7 p5-7 p6-7 p7-7 p1-7
./rvtest run list.toml --quiet --counts whole.counts --stacks >shown 2>err || [ $? = 1 ] || fail "counts of the list: $(<err)"
sums 'counts of the list' whole.counts
sums 'counts of one part' c1-1
sums 'counts of two parts, the last one first' c2-2 c1-2
sums 'counts of five parts' c3-5 c1-5 c5-5 c2-5 c4-5
sums 'counts of seven parts, backwards' c7-7 c6-7 c5-7 c4-7 c3-7 c2-7 c1-7
merges 'rows that miss no expectation' 0 list.text --lenient p1-2 p2-2
merge --report merged p1-2 p2-2
if [ "$status" != 1 ] || ! cmp -s merged list.text; then fail "a report in a file: status $status, $(<err)"; fi
[ "$(<out)" = "$(tail -n 1 list.shown)" ] || fail "the last line: $(<out)"

# ---- refusals

shard list.toml 2 3 p2-3 --stamp run-7
shard list.toml 2 2 other-stamp --stamp run-8
head -n -6 list.toml >four.toml
shard four.toml 2 2 other-jobs --stamp run-7
./rvtest run list.toml --only pass --report choice --quiet >shown 2>err || fail "a choice: $(<err)"
sed 's/^steps 0/steps 1/' p2-2 >other-text
sed 's/^job 2 fault/job 2 pass/' p2-2 >twice
sed 's/^console -/console AB/' p2-2 >changed
head -c 100 p2-2 >begun

refuses 'a line that no part has' 'rvtest: changed:4: invalid part line "console AB": expected "console" and hexadecimal digits or -' p1-2 changed
refuses 'a part that is cut off' 'rvtest: begun: the part is truncated' p1-2 begun
refuses 'a whole report' 'rvtest: list.text: expected a part of a run, found a whole report' p1-2 list.text
refuses 'the report of a choice' 'rvtest: choice: expected the part of a shard, found a report of selected jobs' p1-2 choice
refuses 'another number of shards' 'rvtest: p2-3: a different number of shards than "p1-2"' p1-2 p2-3
refuses 'another number of jobs' 'rvtest: other-jobs: a list with a different number of jobs than "p1-2"' p1-2 other-jobs
refuses 'another stamp' 'rvtest: other-stamp: the stamp differs from that of "p1-2"' p1-2 other-stamp
refuses 'a shard that is missing' 'rvtest: no part for shard 2' p1-2
refuses 'another text of a shard' 'rvtest: other-text: covers the same shard as "p2-2", but differs from it' p1-2 p2-2 other-text
refuses 'a name in two rows' 'rvtest: twice: job 2 has the same name as an earlier job' p1-2 twice

merge p1-2 missing
if [ "$status" != 3 ] || [ -s out ]; then fail "a part that is not there: status $status, $(<err)"; fi
printf 'a part that is not there: %s\n' "$(<err)"
merge
if [ "$status" != 2 ] || [ -s out ]; then fail "no part: status $status, $(<err)"; fi
echo 'no part: status 2'

# Without a stamp a part says of which list it is.
sed 's/budget = 3/budget = 4/' list.toml >other.toml
shard list.toml 1 2 first
shard list.toml 2 2 second
shard other.toml 2 2 other
merges 'parts without a stamp' 1 list.text first second
refuses 'a part of another list' 'rvtest: other: the stamp differs from that of "first"' first other

# ---- two machines whose files differ: each row is that of its machine's files

mkdir here there
cp ./*.elf here
cp ./*.elf there
cp a.elf there/f.elf
shard list.toml 1 2 here-1 --stamp run-7 --root here
shard list.toml 2 2 there-2 --stamp run-7 --root there
./rvtest run list.toml --root there --report there.text --quiet >shown 2>err || [ $? = 1 ] || fail "the other machine: $(<err)"
{
    sed -n '/^job 1 /,/^verdict/p' list.text
    sed -n '/^job 2 /,/^verdict/p' there.text
    sed -n '/^job 3 /,/^verdict/p' list.text
    sed -n '/^job 4 /,/^verdict/p' there.text
    sed -n '/^job 5 /,$p' list.text
} >both.text
if cmp -s both.text list.text; then fail 'the two machines have the same files'; fi
merges 'two machines with different files' 1 both.text here-1 there-2

# ---- each byte of a part, each order of parts, and long lists

python3 "$here/checks/lib/merge.py" ./rvtest p1-2 p2-2 list.text p{1..5}-5

for ((at = 1; at <= 4096; at++)); do
    printf '[[job]]\nname = "job%d"\nimage = "a.elf"\nbudget = 3\n\n' "$at"
done >many.toml
./rvfleet run many.toml >many.text
parts=()
for ((number = 64; number >= 1; number--)); do
    shard many.toml "$number" 64 "m$number"
    parts+=("m$number")
done
merges '4,096 jobs in 64 parts' 1 many.text "${parts[@]}"
echo 'checks/commands/merge.sh: all parts are merged or refused as they must be'
