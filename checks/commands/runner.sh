#!/usr/bin/env bash
# Runs the built rvtest as people and pipelines do: its words and statuses, each place that a report may be written to, runs that are
# stopped in their middle, and a terminal. A run that is stopped has shown all rows up to a job, and perhaps a beginning of the next,
# and the report file is as it was. What rvtest tells of lists, jobs and rows is in the tables of checks/tables.
set -euo pipefail
cd "$(dirname "$0")/../.."
# shellcheck source=checks/lib/fixtures.bash
source checks/lib/fixtures.bash
here=$PWD
cp -r examples "$work"
cd "$work"

# Sets x10 to 0 and x17 to 93, then ECALL; and a jump to itself.
image '00000513 X' >z.elf
image 0000006f >loop.elf

# A job of a list: its name, its image and its budget.
job() {
    printf '[[job]]\nname = "%s"\nimage = "%s"\nbudget = %s\n\n' "$@"
}

# The lines of a job that expects nothing and ends otherwise than by exit 0: its name, and how it ended.
unexpected() {
    printf 'FAIL %s: %s\n     expected: exit 0, since no expectation is set\n' "$@"
}

: >none
echo old >old
job passing z.elf 3 >passing.toml
report '1 passing' 'exit 0' 2 none >passing.text
echo '1 job: 1 passed, 0 failed, 2 steps' >passing.shown
printf '%s\n' 'FAIL failing: exit 5 after 2 steps' '     expected: exit 6' '1 job: 0 passed, 1 failed (1 exit), 2 steps' >failing.shown
# Two bad jobs: a key that is misspelt, and a number out of its range.
{
    job first z.elf 3
    job second z.elf 3 | sed 's/budget/budgte/'
    job third z.elf 0
} >refused.toml
# Two quick jobs, then long ones, and a quick one behind them; and what is shown while the long ones run.
{
    job first z.elf 3
    job second a.elf 3
    for at in 1 2 3 4; do
        job "long$at" loop.elf 1_000_000_000
    done
    job last z.elf 3
} >long.toml
{
    echo 'PASS first: exit 0 after 2 steps'
    unexpected second 'exit 5 after 2 steps'
} >long.begun
# Quick jobs, whose lines are more than a pipe holds.
for ((at = 1; at <= 2000; at++)); do
    job "quick$at" a.elf 3
done >many.toml
{
    for ((at = 1; at <= 2000; at++)); do
        unexpected "quick$at" 'exit 5 after 2 steps'
    done
    echo '2000 jobs: 0 passed, 2000 failed (2000 exit), 4000 steps'
} >many.shown
# The same, and jobs behind them that run for minutes.
{
    cat many.toml
    for ((at = 1; at <= 100; at++)); do
        job "long$at" loop.elf 1_000_000_000
    done
} >many_then_long.toml
# Two jobs that fail, and one that passes.
{
    job first z.elf 3
    job second a.elf 3
    job third a.elf 3
} >three.toml
cat three.toml failing.toml >four.toml
# Jobs that expect nothing, whose images are missing.
{
    job gone gone.elf 3
    job lost lost.elf 3
} >gone.toml
{
    printf 'FAIL %s: refused image-unreadable: %s: No such file or directory\n' gone gone.elf lost lost.elf
    echo '2 jobs: 0 passed, 2 failed (2 refused), 0 steps'
} >gone.shown
# Jobs of which one takes a while.
{
    job first z.elf 3
    job second a.elf 3
    job while loop.elf 200_000_000
    job last z.elf 3
} >while.toml
{
    cat long.begun
    unexpected while 'budget used up after 200000000 steps'
    echo 'PASS last: exit 0 after 2 steps'
    echo '4 jobs: 2 passed, 2 failed (1 exit, 1 budget), 200000006 steps'
} >while.shown

# Runs the program with the redirections of the call, and gives its status in `status`.
run() {
    : >out
    : >err
    status=0
    ./rvtest "$@" || status=$?
}

# Says how the run that this names ended, and ends the check.
fail_run() {
    fail "$1: status $status, standard error '$(<err)', output:"$'\n'"$(head -c 2000 out)"
}

# Fails where the run ended with another status or output, or said anything on standard error.
ends() {
    if [ "$status" != "$2" ] || ! cmp -s out "$3" || [ -s err ]; then
        fail_run "$1"
    fi
    printf '%s: status %s\n' "$1" "$status"
}

# Fails where the run ended with another status or output, or did not say something on standard error that has these words.
says() {
    local name=$1 wanted=$2 text=$3 word
    shift 3
    if [ "$status" != "$wanted" ] || ! cmp -s out "$text" || [ ! -s err ]; then
        fail_run "$name"
    fi
    for word in "$@"; do
        grep -qF -- "$word" err || fail_run "$name: '$word' is not said"
    done
    printf '%s: status %s, %s\n' "$name" "$status" "$(head -n 1 err)"
}

# Whether the run has ended: it is gone, or only its status is left.
is_over() {
    ! kill -0 "$started" 2>/dev/null || [[ $(ps -o stat= -p "$started") == Z* ]]
}

# Fails where the run ended with another status, showed no line that has each of these words, or said anything on standard error.
shows() {
    local name=$1 wanted=$2 word
    shift 2
    if [ "$status" != "$wanted" ] || [ -s err ]; then
        fail_run "$name"
    fi
    for word in "$@"; do
        grep -qF -- "$word" out || fail_run "$name: '$word' is not shown"
    done
    printf '%s: status %s\n' "$name" "$status"
}

# ---- words and statuses

run --version >out 2>err
echo "rvtest $(<"$here/VERSION")" >version
ends '--version' 0 version
for words in --help 'run --help' 'list --help' 'explain --help' 'console --help' 'check --help' 'merge --help' 'diff --help' 'show --help'; do
    # shellcheck disable=SC2086 # several words
    run $words >out 2>err
    shows "$words" 0 'Usage: rvtest'
done
run >out 2>err
says 'no words' 2 none 'Usage: rvtest' run check
run runn passing.toml >out 2>err
says 'an unknown command' 2 none runn 'Usage: rvtest'
run --help >all.help 2>err
run help >out 2>err
ends 'help' 0 all.help
for words in run list explain console gdb check accept merge diff show counts cover profile help; do
    run "$words" --help >one.help 2>err
    run help "$words" >out 2>err
    ends "help $words" 0 one.help
done
run help keys >out 2>err
shows 'help keys' 0 expect_exit
run help runn >out 2>err
says 'help for an unknown command' 2 none runn 'Usage: rvtest'
run run passing.toml --worker 2 >out 2>err
says 'a misspelt option' 2 none --worker --workers 'Usage: rvtest run'
run run passing.toml --workers >out 2>err
says 'a missing value' 2 none --workers
run run passing.toml --workers 65 >out 2>err
says 'a number out of range' 2 none 65 --workers
run run passing.toml --match '(' >out 2>err
says 'a bad expression' 2 none '(' --match 'Usage: rvtest run'
run run passing.toml --only pasing >out 2>err
says 'a name that the list has not' 2 none pasing passing

run run passing.toml >out 2>err
ends 'a job that passes' 0 passing.shown
run run failing.toml >out 2>err
ends 'a job that fails' 1 failing.shown
run run refused.toml >out 2>err
says 'a refused list' 2 none refused.toml second budgte
run check passing.toml >out 2>err
shows 'a check of a good list' 0
run check refused.toml >out 2>err
shows 'a check of two bad jobs' 2 refused.toml second budgte third budget
job second z.elf '"three"' >kind.toml
run run kind.toml >out 2>err
says 'a value of another kind' 2 none kind.toml:1 'job 1 "second"' budget '"three"'
printf '[[job]]\nname = \n' >broken.toml
run run broken.toml >out 2>err
says 'a list that is no TOML' 2 none broken.toml:2
run run gone.toml >out 2>err
says 'images that are missing' 1 gone.shown 'relative paths are resolved against the current directory'
echo '2 jobs: 2 passed, 0 failed, 0 steps' >lenient.shown
run run gone.toml --lenient --quiet --root . >out 2>err
says 'images that are missing, by the lenient rule' 0 lenient.shown 'relative paths are resolved against . (--root)'
run run gone.toml --only gone --quiet --lenient >out 2>err
shows 'an image of a choice that is missing' 0 '1 job: 1 passed, 0 failed, 0 steps'
mkdir folder
for list in missing.toml folder; do
    run run "$list" >out 2>err
    says "$list as the list" 3 none "$list"
done
run run passing.toml >/dev/full 2>err
says 'standard output full' 3 none
run run passing.toml >&- 2>err
says 'standard output closed' 3 none
run run failing.toml >out 2>&-
ends 'a job that fails, standard error closed' 1 failing.shown

# ---- choices of jobs

# The lines of these jobs of the three, which fail, and the last line.
failures() {
    local last=$1
    shift
    for name in "$@"; do
        unexpected "$name" 'exit 5 after 2 steps'
    done
    echo "$last"
}

failures '3 jobs: 1 passed, 2 failed (2 exit), 6 steps' second third >all.shown
failures '2 jobs: 0 passed, 2 failed (2 exit), 4 steps' second third >both.shown
failures '1 job: 0 passed, 1 failed (1 exit), 2 steps' second >second.shown
failures '2 jobs: 1 passed, 1 failed (1 exit), 4 steps' third >some.shown
failures '1 job: 1 passed, 0 failed, 2 steps' >first.shown

echo '3 jobs: 1 passed, 2 failed (2 exit), 6 steps' >three.last
echo '0 jobs: 0 passed, 0 failed, 0 steps' >empty.shown
run run three.toml --report three >out 2>err
ends 'no choice' 1 all.shown
run run three.toml --match . >out 2>err
ends 'a choice of all' 1 all.shown
run run three.toml --only second >out 2>err
ends 'a choice of one' 1 second.shown
run run three.toml --only first --report green >out 2>err
ends 'a choice of one that passes' 0 first.shown
tail -n 1 green | cmp -s - <(echo 'part 1 of 3') || fail "the report of a choice ends with $(tail -n 1 green)"
run run three.toml --only first --match '^th' >out 2>err
ends 'a choice by name and by expression' 1 some.shown
run run three.toml --failed three >out 2>err
ends 'what failed before' 1 both.shown
run run three.toml --failed green >out 2>err
says 'nothing failed before' 0 none green
run run three.toml --failed green --only second >out 2>err
says 'nothing failed before, and a choice of one' 1 second.shown green
run run three.toml --match '^th' --failed green --only first >out 2>err
says 'nothing failed before, and a choice by name and by expression' 1 some.shown green
run run four.toml --report four >out 2>err
shows 'a job more, which fails by the lenient rule too' 1 '4 jobs: 1 passed, 3 failed (3 exit), 8 steps'
run run four.toml --failed four --lenient >out 2>err
ends 'what failed before, by the lenient rule' 1 failing.shown
run run three.toml --failed four >out 2>err
says 'what failed before, of which a job is gone' 1 both.shown four failing
[ "$(wc -l <err)" = 1 ] || fail_run 'a job that is gone is told in one line'
run run passing.toml --failed four >out 2>err
says 'what failed before, of which all jobs are gone' 0 empty.shown second third failing
run run three.toml --match nothing >out 2>err
says 'an expression that chooses no job' 2 none '"nothing"'
for workers in 1 4 64; do
    run run many.toml --workers "$workers" --group $((65 - workers)) >out 2>err
    ends "many jobs by $workers workers" 1 many.shown
done

# ---- shards and merging

run run three.toml --shard 1/2 --stamp run.1 --report part1 >out 2>err
ends 'the first of two shards' 1 some.shown
run run three.toml --shard 2/2 --stamp run.1 --report part2 >out 2>err
ends 'the second of two shards' 1 second.shown
run merge part2 part1 part2 --report merged >out 2>err
ends 'both shards merged' 1 three.last
run merge part1 part2 --junit one --report one >out 2>err
says 'both shards merged into one file twice' 2 none '--report <FILE>' '--junit <FILE>' 'cannot name the same file' 'Usage: rvtest merge'
cmp -s merged three || fail "the merged report is another: $(<merged)"
for words in '' '--report -'; do
    # shellcheck disable=SC2086 # several words, or none
    run merge part1 part2 $words >out 2>err
    says "both shards merged to standard output, by '$words'" 1 three
    cmp -s err three.last || fail_run "both shards merged to standard output, by '$words'"
done
run run passing.toml --shard 2/2 --report empty >out 2>err
ends 'a shard without a job' 0 empty.shown
run merge part1 >out 2>err
says 'a missing shard' 2 none 'shard 2'
run merge part1 three --report merged >out 2>err
says 'a whole report among parts' 2 none three 'whole report'
run merge part1 empty >out 2>err
says 'a part of another list' 2 none empty part1
# Without a stamp of its own a part has one of the list's text.
{
    cat three.toml
    echo
} >spaced.toml
for list in three spaced; do
    run run "$list.toml" --shard 1/2 --report "$list.part1" >out 2>err
    ends "a shard without a stamp, of $list.toml" 1 some.shown
    last="part 2 of 3 shard 1/2 stamp $(sha256sum "$list.toml" | head -c 16)"
    [ "$(tail -n 1 "$list.part1")" = "$last" ] || fail "the part ends with $(tail -n 1 "$list.part1"), and not with $last"
done
run run three.toml --shard 2/2 --report three.part2 >out 2>err
ends 'the other shard without a stamp' 1 second.shown
run merge three.part2 three.part1 >out 2>err
says 'shards without a stamp merged' 1 three '3 jobs'
run merge spaced.part1 three.part2 >out 2>err
says 'shards of lists that differ by a byte' 2 none three.part2 'the stamp differs' spaced.part1
head -c 100 part2 >begun
run merge part1 begun >out 2>err
says 'a part that is cut off' 2 none begun
run merge part1 missing >out 2>err
says 'a part that is missing' 3 none missing
for shard in 0/2 3/2 1 1/ /2 x/2 1/4097 +1/2; do
    run run three.toml --shard "$shard" >out 2>err
    says "$shard as the shard" 2 none "'$shard'" '--shard <K/N>' 'Usage: rvtest run'
done
run run three.toml --shard 1/2 --stamp 'a b' >out 2>err
says 'a bad stamp' 2 none "'a b'" '--stamp <TEXT>' 'Usage: rvtest run'
run run three.toml --shard 1/2 --only first >out 2>err
says 'a shard of a choice' 2 none --shard --only
run run three.toml --report one --junit one >out 2>err
says 'one file for the report and JUnit' 2 none '--report <FILE>' '--junit <FILE>' 'cannot name the same file' 'Usage: rvtest run'
[ ! -e one ] || fail 'a file that is refused is there'

# ---- reports that other tools read, and the way to an end

# The JUnit file of the three as a suite of this name, where this text stands behind the line of each that failed.
junit() {
    local suite=$1 behind=$2 name line
    printf '<?xml version="1.0" encoding="UTF-8"?>\n<testsuites>\n'
    printf '<testsuite name="%s" tests="3" failures="2" errors="0">\n<properties>\n' "$suite"
    printf '<property name="steps.%s" value="2"/>\n' first second third
    printf '</properties>\n'
    for name in first second third; do
        printf '<testcase classname="%s" name="%s">\n' "$suite" "$name"
        line="FAIL $name: exit 5 after 2 steps"
        [ "$name" = first ] || printf '<failure message="%s">%s\n%s</failure>\n' "$line" "$line" "$behind"
        printf '<system-out>2 steps\n</system-out>\n</testcase>\n'
    done
    printf '</testsuite>\n</testsuites>\n'
}

junit three $'     expected: exit 0, since no expectation is set\n' >run.xml
junit three '' >show.xml
junit merged '' >merge.xml
{
    echo 'PASS first: exit 0 after 2 steps'
    cat all.shown
} >verbose.shown
while read -r shown words; do
    rm -f junit.xml
    # shellcheck disable=SC2086 # several words, or none
    run run three.toml $words --junit junit.xml >out 2>err
    ends "a JUnit file beside '$words'" 1 "$shown"
    cmp -s junit.xml run.xml || fail "the JUnit file beside '$words' is another: $(<junit.xml)"
done <<'END'
all.shown
three.last --quiet
verbose.shown --verbose
END
run run three.toml --quiet --junit - >out 2>err
says 'JUnit to standard output' 1 run.xml
cmp -s err three.last || fail_run 'JUnit to standard output'
junit 'board 2 &lt;&quot;a&quot;&gt;' $'     expected: exit 0, since no expectation is set\n' >named.xml
run run three.toml --quiet --junit - --suite 'board 2 <"a">' >out 2>err
says 'JUnit with the name of a suite' 1 named.xml
# The example of docs/REPORTS.md: a job of which another exit and another console are expected.
mkdir documented
sed '0,/^expect_exit = 3$/s//expect_exit = 4/; s/# HI, RV32/# Hi, RV32/' examples/fleet.toml >documented/four.toml
sed -n '/--junit - 2>/,/<\/testsuites>/s/^    //p' "$here/docs/REPORTS.md" | tail -n +2 >documented/junit.xml
run run documented/four.toml --only upper --quiet --junit - >out 2>err
says 'the JUnit file that is documented' 1 documented/junit.xml '1 job: 0 passed, 1 failed (1 exit), 127 steps'
rm merged
run merge part2 part1 --junit - --report merged >out 2>err
says 'both shards merged, JUnit to standard output' 1 merge.xml
cmp -s err three.last || fail_run 'both shards merged, JUnit to standard output'
cmp -s merged three || fail "the merged report beside JUnit is another: $(<merged)"
run show three --junit junit.xml >out 2>err
shows 'a report shown' 1 'FAIL second: exit 5 after 2 steps' '3 jobs: 1 passed, 2 failed (2 exit), 6 steps' 'most steps:' '  2 first'
cmp -s junit.xml show.xml || fail "the JUnit file of a report is another: $(<junit.xml)"
printf '%s\n' '3 jobs: 3 passed, 0 failed, 6 steps' 'most steps:' '  2 first' '  2 second' '  2 third' >lenient.shown
run show three --lenient >out 2>err
ends 'a report shown by the lenient rule' 0 lenient.shown
run diff three three >out 2>err
shows 'a report compared with itself' 0 '0 of 3 jobs differ: 0 gone, 0 new, 0 changed'
sed '0,/^steps 2$/s//steps 7/' three >slower
echo '0 of 3 jobs differ: 0 gone, 0 new, 0 changed' >same.shown
run diff three slower >out 2>err
ends 'reports that differ in steps alone' 0 same.shown
printf '%s\n' '! first: steps 2 -> 7' '1 of 3 jobs differ: 0 gone, 0 new, 1 changed' >slower.shown
run diff three slower --steps >out 2>err
ends 'their steps compared' 1 slower.shown
run diff three green >out 2>err
shows 'a report compared with that of a choice' 0 '0 of 1 job differs: 0 gone, 0 new, 0 changed, 2 not compared'
run diff three missing >out 2>err
says 'a missing report compared' 3 none missing
run explain three.toml second --last 1 >out 2>err
shows 'a job explained' 1 'FAIL second: exit 5 after 2 steps' 'expected: exit 0' 'ended at 80000008' 'addi a7, zero, 93' 'exit 5'
# A folder that has one of two images.
mkdir root
cp z.elf root/gone.elf
printf '%s\n' 'gone.toml:6: error: job 2 "lost": refused image-unreadable: lost.elf: No such file or directory' '2 jobs, 1 refused' >root.checked
run check gone.toml --root root >out 2>err
ends 'images in a folder checked' 2 root.checked
run explain gone.toml gone >out 2>err
shows 'an image that is in a folder explained' 1 'FAIL gone: refused image-unreadable: gone.elf: No such file or directory'
run explain gone.toml gone --root root >out 2>err
shows 'an image in a folder explained' 0 'PASS gone: exit 0 after 2 steps'
run run gone.toml --root root --only gone >out 2>err
ends 'an image in a folder run' 0 first.shown
run explain three.toml first >out 2>err
shows 'a job that passes explained' 0 'PASS first: exit 0 after 2 steps'
run explain three.toml secnd >out 2>err
says 'a job that the list has not explained' 2 none secnd second
run run examples/broken.toml --last 16 >out 2>err
ends 'the examples that fail, with their last instructions' 1 examples/broken.text
sed -n '/^FAIL hang/,/not run/p' examples/broken.text |
    sed '/ ended at /i \     never ends: after 34 steps it repeats every 2 steps' >hang.text
echo '     calls: wait_until_ready+0x2 <- main+0x64 <- start+0x46' >>hang.text
run explain examples/broken.toml hang >out 2>err
ends 'one of them explained' 1 hang.text
# `main` ended with the first call of `depth`, which called itself 127 times more.
sed -n '/^FAIL stack/,/store-access at 8007f00c$/p' examples/broken.text >stack.text
printf '     calls: depth+0x12%s <- 97 more\n' "$(printf ' <- depth+0x1a%.0s' {1..31})" >>stack.text
run explain examples/broken.toml stack >out 2>err
ends 'a stack explained that grew out of its memory' 1 stack.text
run run failing.toml --last 2 >out 2>err
shows 'the last instructions of a job that fails' 1 'expected: exit 6' 'ended at 80000008' 'addi a0, zero, 5'

# ---- places of the report

# Fails where a file is not this one, or its `.new` is there.
is_saved() {
    if ! cmp -s "$1" "$2" || [ -e "$1.new" ]; then
        fail "$1 is not $2: $(ls -l "$1" "$1.new" 2>&1)"
    fi
}

run run failing.toml --report report >out 2>err
ends 'a new report' 1 failing.shown
is_saved report failing.text
cp old report
echo left >report.new
run run failing.toml --report report >out 2>err
ends 'a report over an old one, and over one that was left' 1 failing.shown
is_saved report failing.text
cp old report
ln -s report link
ln -s later nowhere
for file in link nowhere; do
    run run passing.toml --report "$file" >out 2>err
    ends "a link as the report: $file" 0 passing.shown
    [ -L "$file" ] || fail "$file is no link any more"
    is_saved "$(readlink "$file")" passing.text
done
run run passing.toml --report /dev/null >out 2>err
ends '/dev/null as the report' 0 passing.shown
[ -c /dev/null ] || fail '/dev/null was replaced'
mkfifo pipe
cat pipe >piped &
run run passing.toml --report pipe >out 2>err
wait $!
ends 'a pipe as the report' 0 passing.shown
cmp -s piped passing.text || fail "the pipe got another report: $(<piped)"
run run passing.toml --report - >out 2>err
says 'standard output as the report' 0 passing.text
cmp -s err passing.shown || fail_run 'standard output as the report'

# What goes to a stream that is closed does not come to the report.
cp old report
run run failing.toml --report report >&- 2>err
says 'a report, standard output closed' 3 none
is_saved report old
run run failing.toml --report report >out 2>&-
ends 'a report, standard error closed' 1 failing.shown
is_saved report failing.text
# Where all three are closed, the file takes the place of none of them: what is shown on standard error does not come to it.
cat pipe >piped &
status=0
./rvtest run passing.toml --report pipe --junit - <&- >&- 2>&- || status=$?
wait $!
if [ "$status" != 3 ] || ! head -n -1 passing.text | cmp -s - piped; then
    fail "a pipe as the report, all streams closed: status $status, and it got: $(<piped)"
fi

# What cannot be written is told, and nothing runs.
mkdir -p taken/report.new
for file in missing/report folder passing.toml/report taken/report; do
    run run passing.toml --report "$file" >out 2>err
    says "'$file' as the report" 3 none "$file"
done
mkdir locked
chmod 555 locked
chmod 755 . rvtest
# The user whom file modes bind: another one, where this is root.
user=()
[ "$(id -u)" != 0 ] || user=(setpriv --reuid=65534 --regid=65534 --clear-groups)
status=0
"${user[@]}" ./rvtest run passing.toml --report locked/report >out 2>err || status=$?
says 'a report in a folder without leave' 3 none locked/report
run run passing.toml --report /dev/full >out 2>err
# A run ends where its report's file takes no more.
says 'a full disk as the report' 3 none /dev/full

# ---- runs that are stopped

# Starts a run in the background, whose signals are not those of this shell, with its results to a file.
start() {
    local shown=$1
    shift
    env --default-signal=INT,TERM,PIPE ./rvtest run "$@" --report report >"$shown" 2>err &
    started=$!
}

# Waits until this holds.
await() {
    local try
    for ((try = 0; try < 600; try++)); do
        ! "$@" || return 0
        sleep 0.05
    done
    fail "$*: not so after 30 s"
}

# Whether a file has so many lines.
has_lines() {
    [ "$(wc -l <"$1")" -ge "$2" ]
}

# Sends the run a signal where one is given, and gives its status.
await_end() {
    [ -z "${1:-}" ] || kill -s "$1" "$started"
    status=0
    wait "$started" 2>/dev/null || status=$?
}

# Fails where the run ended with another status, showed no beginning of this text, or left another report than was there.
is_stopped() {
    local name=$1 wanted=$2 text=$3
    if [ "$status" != "$wanted" ] || ! cmp -s -n "$(stat -c %s out)" out "$text"; then
        fail_run "$name"
    fi
    cmp -s report old || fail "$name: the report is not what it was"
    printf '%s: status %s, %s of %s bytes shown\n' "$name" "$status" "$(stat -c %s out)" "$(stat -c %s "$text")"
}

cp old report
# A job that is done is shown while the one behind it runs, and none that is done before its turn.
for signal in INT TERM KILL; do
    for workers in 1 4; do
        : >out
        start out long.toml --verbose --workers "$workers"
        await has_lines out 3
        await_end "$signal"
        is_stopped "$signal in a long job, $workers workers" $((128 + $(kill -l "$signal"))) long.begun
    done
done

# Some lines are read, and the pipe is full then; what the run had written into it comes behind them.
for signal in INT TERM; do
    start pipe many.toml --workers 4
    exec 3<pipe
    for ((at = 0; at < 100; at++)); do
        IFS= read -r line <&3
        printf '%s\n' "$line"
    done >out
    await_end "$signal"
    cat <&3 >>out
    exec 3<&-
    is_stopped "$signal at a full pipe" $((128 + $(kill -l "$signal"))) many.shown
done

# Whoever reads goes away: the run ends as a program that SIGPIPE ends, without a word, and takes its new file away.
rm -f report.new
start pipe many.toml --workers 4
head -n 100 pipe >out
await_end
is_stopped 'a closed pipe' 141 many.shown
[ ! -s err ] || fail_run 'a closed pipe'
is_saved report old

# No other worker draws a further job then: the run ends at once, though its last jobs would run for minutes.
start pipe many_then_long.toml --workers 4
head -n 100 pipe >out
await is_over
await_end
is_stopped 'a closed pipe before long jobs' 141 many.shown

# The folder of the report is taken away, or locked, while the run waits at a full pipe: it cannot put the report in its place.
while IFS=: read -r change reason; do
    mkdir -m 777 kept
    install -m 666 old kept/report
    env --default-signal=PIPE "${user[@]}" ./rvtest run many.toml --report kept/report >pipe 2>err &
    started=$!
    exec 3<pipe
    await test -e kept/report.new
    $change kept
    cat <&3 >out
    exec 3<&-
    await_end
    says "$change of the report's folder" 3 many.shown "kept/report: $reason"
    [ ! -e kept ] || cmp -s kept/report old || fail "$change of the report's folder: the report is not what it was"
done <<'END'
rm -r:No such file or directory
chmod 555:Permission denied
END
chmod 755 kept

# ---- a terminal

# What is left on a terminal's screen after these bytes.
screen() {
    python3 -c '
import re, sys
rows, column = [[]], 0
for sign in re.findall(r"\x1b\[[0-9;]*[A-Za-z]|.", sys.stdin.read(), re.S):
    row = rows[-1]
    if sign == "\r":
        column = 0
    elif sign == "\n":
        rows.append([])
    elif sign[0] == "\x1b":
        row[:] = {"\x1b[K": row[:column], "\x1b[0K": row[:column], "\x1b[2K": []}.get(sign, row)
    else:
        row.extend(" " * (column - len(row)))
        row[column:column + 1] = sign
        column += 1
for row in rows[:-1] if not "".join(rows[-1]).strip() else rows:
    print("".join(row).rstrip())'
}

# Runs a command with a terminal for each stream that it does not give another. The bytes go to `typed`, what is left of them to
# `left`, and the status to `status`.
on_terminal() {
    status=0
    script -qec "$1" /dev/null </dev/null >typed || status=$?
    tr -d '\000' <typed | PYTHONIOENCODING=utf-8 screen >left
}

on_terminal './rvtest run while.toml --verbose >out'
if [ "$status" != 1 ] || ! cmp -s out while.shown; then
    fail "results to a file: status $status: $(<out)"
fi
if ! grep -q '[0-9]' typed || [ -s left ]; then
    fail "the progress line did not come and go: $(od -c typed | tail -n 20)"
fi
echo 'results to a file: progress comes on the terminal, and goes'
on_terminal './rvtest run while.toml --verbose'
if [ "$status" != 1 ] || ! cmp -s left while.shown; then
    fail "results on a terminal: status $status: $(<left)"
fi
# A terminal has each line end as two bytes.
[ "$(stat -c %s typed)" -gt $(($(stat -c %s left) + $(wc -l <left))) ] || fail 'no progress line beside results'
echo 'results on a terminal: progress comes, and they are left'
on_terminal './rvtest run while.toml --verbose 2>err'
if [ "$status" != 1 ] || [ -s err ] || ! cmp -s left while.shown; then
    fail "standard error to a file: status $status: $(<err)"
fi
echo 'standard error to a file: no progress'
