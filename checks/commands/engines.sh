#!/usr/bin/env bash
# Runs the engines of engines/ that one machine can have for real: make, GNU parallel over ssh to two servers on the loopback, and Slurm
# with two nodes on this machine. In each a shard is killed in its middle and run again by the engine, and the merged report is compared
# with that of one run, byte for byte; then a job fails, and then a part is missing: the engine's status must be red. The files for
# GitHub and GitLab are read as YAML and run as those servers would, in clones of what is committed here.
#   checks/commands/engines.sh [ENGINE..]    make, yaml, parallel, slurm: absent, all of them
#   checks/commands/engines.sh --install     installs the Debian packages that it needs, and does no more
# It needs root, for Slurm and for sshd, says what it starts, and ends what it started. It is no part of the merge gate.
set -euo pipefail
cd "$(dirname "$0")/../.."
packages=(make git python3-yaml parallel rsync openssh-server openssh-client slurm-wlm munge)

if [ "${1:-}" = --install ]; then
    apt-get update
    exec apt-get install -y --no-install-recommends "${packages[@]}"
fi

# shellcheck source=checks/lib/fixtures.bash
source checks/lib/fixtures.bash
top=$PWD
export RVTEST=$work/rvtest
engines=("$@")
[ ${#engines[@]} -gt 0 ] || engines=(make yaml parallel slurm)
started=()

say() {
    printf 'engines: %s\n' "$*"
}

# Ends what was started, the last one first, and waits until it is gone: Slurm writes its state into the folder to the last.
end_all() {
    local at turn
    for ((at = ${#started[@]} - 1; at >= 0; at--)); do
        say "ends process ${started[at]}"
        kill "${started[at]}" 2>/dev/null || true
        for ((turn = 0; turn < 100; turn++)); do
            kill -0 "${started[at]}" 2>/dev/null || break
            sleep 0.1
        done
    done
    rm -rf "$work"
}
trap end_all EXIT

needs() {
    local name
    for name in "$@"; do
        command -v "$name" >/dev/null || [ -x "/usr/sbin/$name" ] || fail "there is no $name: checks/commands/engines.sh --install installs ${packages[*]}"
    done
}

# Waits until a command succeeds, at most so many seconds.
await() {
    local seconds=$1 at
    shift
    for ((at = 0; at < seconds * 10; at++)); do
        ! "$@" >/dev/null 2>&1 || return 0
        sleep 0.1
    done
    fail "waited $seconds s for: $*"
}

# A list of jobs that take about a second each by four shards, one of which fails where that is asked for.
#   write_list COUNT FAILING
write_list() {
    local at
    for ((at = 1; at <= $1; at++)); do
        printf '[[job]]\nname = "job%d"\nimage = "%s/loop.elf"\nbudget = 300_000_000\nexpect_end = "%s"\n\n' "$at" "$work" \
            "$([ "$at" = "$2" ] && echo breakpoint || echo budget)"
    done
}

image '6f 00 00 00' >"$work/loop.elf"
write_list 8 0 >"$work/green.toml"
write_list 8 3 >"$work/red.toml"
say 'one machine runs both lists'
"$RVTEST" run "$work/green.toml" --report "$work/green.txt" --quiet
status=0
"$RVTEST" run "$work/red.toml" --report "$work/red.txt" --quiet || status=$?
[ "$status" = 1 ] || fail "the list with a job that fails: status $status"

# Compares a merged report with that of one machine.
#   same ENGINE REPORT EXPECTED
same() {
    cmp "$2" "$3" || fail "$1: the merged report is not that of one machine"
    say "$1: the merged report is that of one machine, byte for byte"
}

# Kills one running shard of this stamp's or list's once it runs: a process of the program whose words match.
kill_one() {
    local pattern=$1 seconds=$2 at pid
    for ((at = 0; at < seconds * 20; at++)); do
        pid=$(pgrep -f -- "$pattern" | head -n 1 || true)
        if [ -n "$pid" ]; then
            sleep 0.3
            if kill -KILL "$pid" 2>/dev/null; then
                say "killed process $pid, a shard: $pattern"
                return 0
            fi
        fi
        sleep 0.05
    done
    fail "no shard ran that could be killed: $pattern"
}

# make, over a list in four shards, two at a time, by the rvtest given.
#   run_make RVTEST LIST [WORD..]
run_make() {
    local rvtest=$1 list=$2
    shift 2
    make -f "$top/engines/make/Makefile" -j2 LIST="$list" SHARDS=4 RVTEST="$rvtest" "$@" >log 2>&1
}

check_make() {
    local status
    needs make
    mkdir "$work/make"
    cd "$work/make"
    say 'make -j2, a shard killed; make again'
    kill_one 'rvtest run .* --shard 2/4' 30 &
    local killer=$!
    status=0
    run_make "$RVTEST" "$work/green.toml" || status=$?
    wait "$killer" || fail 'make: nothing was killed'
    if [[ $status = 0 || -e report.txt ]] || compgen -G 'parts/*/part-2'; then
        fail "make: status $status after a shard was killed"
    fi
    run_make "$RVTEST" "$work/green.toml" || fail "make again: $(tail -n 3 log)"
    same make report.txt "$work/green.txt"
    make -f "$top/engines/make/Makefile" clean >/dev/null
    [[ ! -e parts && ! -e report.txt ]] || fail 'make clean leaves files'
    status=0
    run_make "$RVTEST" "$work/red.toml" || status=$?
    [ "$status" != 0 ] || fail 'make: green with a job that fails'
    same 'make, a job that fails' report.txt "$work/red.txt"
    check_make_again
    check_make_names
    cd "$top"
}

# A folder with a list of five jobs, three images and a golden file, and an rvtest that notes its shards.
prepare_make() {
    mkdir "$1"
    cd "$1"
    mkdir images
    cp "$top"/examples/firmware/*.elf images
    printf '# Hi, RV32!\n' >golden
    sed 's|examples/firmware/|images/|' "$top/examples/fleet.toml" >list.toml
    printf '[[job]]\nname = "told"\nimage = "images/upper.elf"\nbudget = 100000\ninput = "hi"\nexpect_console_file = "golden"\n' >>list.toml
    printf '%s\n' '#!/bin/sh' "case \" \$* \" in *' --shard '*) echo \"\$*\" >>'$PWD/shards' ;; esac" "exec '$RVTEST' \"\$@\"" >rvtest
    chmod +x rvtest
}

# Whether make says and reports what one run does now; how many shards ran is in `shards`.
#   is_current NAME
is_current() {
    local status=0 expected=0
    : >shards
    run_make ./rvtest list.toml || status=$?
    "$RVTEST" run list.toml --report alone.txt --quiet >alone || expected=$?
    [ $((status == 0)) = $((expected == 0)) ] || fail "make, $1: status $status, and that of one run is $expected: $(<log)"
    cmp -s report.txt alone.txt || fail "make, $1: the report is not that of one run now: $(diff report.txt alone.txt)"
}

# After a change to what a part is made of, whatever its dates say, the shards run again; after none, or one back to what they ran of
# before, they do not.
check_make_again() {
    local name change count
    prepare_make "$work/again"
    is_current 'the first run'
    [ "$(wc -l <shards)" = 4 ] || fail "make, the first run: $(<shards)"
    while IFS='|' read -r name count change; do
        eval "$change"
        is_current "$name"
        [ "$(wc -l <shards)" = "$count" ] || fail "make, $name: not $count shards ran again: $(<shards)"
        is_current "$name, again"
        [ ! -s shards ] || fail "make, $name: shards ran again though nothing had changed: $(<shards)"
        say "make, $name: $count shards ran again"
    done <<'END'
another image|4|cp images/checksum.elf images/upper.elf
the first image once more|0|cp "$top/examples/firmware/upper.elf" images
another image with an old date|4|printf more >>images/upper.elf && touch -d 2000-01-01 images/upper.elf
parts dated in the future, and another image|4|find parts -type f -exec touch -d 2100-01-01 {} + && printf more >>images/upper.elf
an image that is gone|4|rm images/upper.elf
a directory in its place|4|mkdir images/upper.elf
another folder of images under this name|4|mkdir other && cp images/checksum.elf other && cat images/checksum.elf golden >other/upper.elf && touch -d 2000-01-01 other/* && mv images was && ln -s other images
another golden file with an old date|4|printf 'HI' >golden && touch -d 2000-01-01 golden
another list with an old date|4|sed -i 's/budget = 100000$/budget = 3/' list.toml && touch -d 2000-01-01 list.toml
another rvtest|4|echo '# changed' >>rvtest
END
    # What changes while the shards run: no report is made of both states.
    rm report.txt
    sed -i "3i case \" \$* \" in *' --shard 3/4 '*) printf other >'$PWD/golden' ;; esac" rvtest
    status=0
    run_make ./rvtest list.toml || status=$?
    if [[ $status = 0 || -e report.txt ]] || ! grep -q 'error: the list, a file that it names or rvtest changed during the run' log; then
        fail "make, a file that changes during the run: status $status: $(<log)"
    fi
    say 'make, a file that changes during the run: red, without a report'
    is_current 'after a file changed during the run'
}

# A list, and the folder of the engine, of any name.
check_make_names() {
    local name
    prepare_make "$work/names"
    "$RVTEST" run list.toml --report alone.txt --quiet >/dev/null || true
    while IFS= read -r name; do
        name=$(printf '%b_' "$name")
        name=${name%_}
        cp list.toml "./$name"
        rm -f report.txt
        run_make "$RVTEST" "$name" || [ -e report.txt ] || fail "make, a list called $name: $(<log)"
        cmp report.txt alone.txt || fail "make, a list called $name: the report is not that of one run"
        [ ! -e pwned ] || fail "make: the list's name $name was run as a command"
        rm -r parts
    done <<'END'
a  b.toml
-x.toml
x;touch pwned;.toml
x$(touch pwned)`touch pwned`.toml
x$(shell touch pwned)#.toml
x'y"z%\\.toml
a\nb.toml
END
    ! run_make "$RVTEST" list.toml SHARDS='2;touch pwned' || fail 'make: takes a number of shards that is not a number'
    [ ! -e pwned ] || fail 'make: the number of shards was run as a command'
    mkdir -p 'a  b'
    cp -r "$top/engines" 'a  b'
    make -f "a  b/engines/make/Makefile" LIST=list.toml SHARDS=2 RVTEST="$RVTEST" >log 2>&1 || [ -e report.txt ] || fail "make in a folder with spaces: $(<log)"
    say 'make: lists of seven names, and a folder with spaces'
}

# The clones' own rvtest runs the programs that are tried here.
check_yaml() {
    needs git python3
    python3 -c 'import yaml' 2>/dev/null || fail "python3 has no yaml: checks/commands/engines.sh --install installs ${packages[*]}"
    say 'the files for GitHub and GitLab, in clones'
    RVFLEET_BIN=$work python3 checks/lib/pipelines.py "$top" "$RVTEST" || fail 'yaml: see above'
}

# A server on the loopback, at a port, for the key of this check alone.
start_sshd() {
    /usr/sbin/sshd -f "$work/ssh/config" -o "ListenAddress=127.0.0.1:$1" -o "PidFile=$work/ssh/pid.$1"
    await 10 test -s "$work/ssh/pid.$1"
    started+=("$(<"$work/ssh/pid.$1")")
    say "started sshd at 127.0.0.1:$1, process ${started[-1]}"
}

make_keys() {
    mkdir -p "$work/ssh" /run/sshd
    ssh-keygen -q -t ed25519 -N '' -f "$work/ssh/host"
    ssh-keygen -q -t ed25519 -N '' -f "$work/ssh/user"
    cp "$work/ssh/user.pub" "$work/ssh/authorized"
    chmod 700 "$work/ssh"
    printf '%s\n' "HostKey $work/ssh/host" "AuthorizedKeysFile $work/ssh/authorized" 'StrictModes no' 'PermitRootLogin yes' \
        'PasswordAuthentication no' 'UsePAM no' >"$work/ssh/config"
    printf '%s\n' '#!/bin/sh' "exec ssh -F none -i $work/ssh/user -o StrictHostKeyChecking=no -o UserKnownHostsFile=/dev/null -o LogLevel=ERROR \"\$@\"" >"$work/ssh/ssh"
    chmod +x "$work/ssh/ssh"
    export PARALLEL_SSH=$work/ssh/ssh PARALLEL_RSYNC_OPTS="-rlDzR -e $work/ssh/ssh"
    printf '%s\n' "2/ssh -p 2301 root@127.0.0.1" "2/ssh -p 2302 root@127.0.0.1" | sed "s|/ssh |/$work/ssh/ssh |" >"$work/hosts"
}

check_parallel() {
    local status killer
    needs parallel rsync sshd ssh
    make_keys
    start_sshd 2301
    start_sshd 2302
    cd "$work"
    say 'GNU parallel over ssh, a shard killed'
    kill_one 'rvtest run .* --shard 2/4' 60 &
    killer=$!
    "$top/engines/parallel/fleet" green.toml 4 hosts parallel.txt 2>log || fail "parallel: $(tail -n 3 log)"
    wait "$killer" || fail 'parallel: nothing was killed'
    same parallel parallel.txt green.txt
    status=0
    "$top/engines/parallel/fleet" red.toml 4 hosts parallel.txt 2>log || status=$?
    [ "$status" = 1 ] || fail "parallel: a job that fails: status $status"
    same 'parallel, a job that fails' parallel.txt red.txt
    say 'GNU parallel, a shard that can never run'
    printf '%s\n' '#!/bin/sh' "case \" \$* \" in *' --shard 3/4 '*) exit 3;; esac" "exec $RVTEST \"\$@\"" >broken
    chmod +x broken
    status=0
    RVTEST=$work/broken "$top/engines/parallel/fleet" green.toml 4 hosts missing.txt 2>log || status=$?
    [[ $status = 2 && ! -e missing.txt ]] || fail "parallel: a part is missing: status $status"
    say "parallel: a part is missing: status 2, $(tail -n 1 log)"
    check_parallel_names
    cd "$top"
}

# Lists, a folder and an rvtest of any name: nothing in them is a command to parallel or to a shell, here or on a host.
check_parallel_names() {
    local name status pwned=~/rvfleet-pwned
    [ ! -e "$pwned" ] || fail "$pwned is there already"
    sed "s|^image = .*|image = \"$work/a.elf\"|; s/^expect_end.*//; s/^budget.*/budget = 3\nexpect_exit = 5/" green.toml >small.toml
    "$RVTEST" run small.toml --report small.txt --quiet
    while IFS= read -r name; do
        name=$(printf '%b_' "$name")
        name=${name%_}
        mkdir "$work/$name"
        cd "$work/$name"
        cp -r "$top/engines" .
        cp ../small.toml "./$name"
        cp "$RVTEST" rvtest
        status=0
        RVTEST=$work/$name/rvtest engines/parallel/fleet "$name" 2 ../hosts merged.txt >log 2>&1 || status=$?
        [ ! -e "$pwned" ] || fail "parallel: the name $name was run as a command: see $pwned"
        cmp -s merged.txt ../small.txt || fail "parallel, a list called $name: status $status: $(tail -n 3 log)"
        cd "$work"
        say "parallel, a list called $(printf %q "$name"): the merged report is that of one machine"
    done <<'END'
a  b.toml
-x.toml
x;cd;touch rvfleet-pwned;.toml
x$(cd;touch rvfleet-pwned)`cd;touch rvfleet-pwned`.toml
{= system("cd;touch rvfleet-pwned") =}{}{1}.toml
x'y"z%\\*.toml
END
    cp small.toml $'a\nb.toml'
    cp small.toml $'b.toml\n'
    for name in $'a\nb.toml' $'b.toml\n'; do
        status=0
        "$top/engines/parallel/fleet" "$name" 2 hosts merged.txt >log 2>&1 || status=$?
        if [ "$status" != 2 ] || ! grep -q 'error: newline in the path of LIST' log; then
            fail "parallel, a list called $(printf %q "$name"): status $status: $(<log)"
        fi
    done
    for name in '2;touch rvfleet-pwned' 0 -1 ''; do
        status=0
        "$top/engines/parallel/fleet" small.toml "$name" hosts merged.txt >log 2>&1 || status=$?
        if [ "$status" != 2 ] || ! grep -q 'error: invalid N' log; then
            fail "parallel, $name shards: status $status: $(<log)"
        fi
    done
    status=0
    "$top/engines/parallel/fleet" small.toml 2 hosts merged.txt 'a;b' >log 2>&1 || status=$?
    if [ "$status" != 2 ] || ! grep -q 'error: invalid STAMP' log; then
        fail "parallel, a stamp: status $status: $(<log)"
    fi
}

write_slurm() {
    local folder=$1 host
    host=$(hostname -s)
    printf '%s\n' ClusterName=fleet "SlurmctldHost=$host(127.0.0.1)" AuthType=auth/munge SlurmUser=root SlurmdUser=root \
        "StateSaveLocation=$folder/state" "SlurmctldPidFile=$folder/ctld.pid" "SlurmdPidFile=$folder/slurmd-%n.pid" \
        "SlurmdSpoolDir=$folder/spool-%n" "SlurmctldLogFile=$folder/ctld.log" "SlurmdLogFile=$folder/slurmd-%n.log" \
        ProctrackType=proctrack/linuxproc TaskPlugin=task/none SelectType=select/cons_tres SelectTypeParameters=CR_Core ReturnToService=2 \
        JobRequeue=1 MpiDefault=none \
        "NodeName=n1 NodeHostname=$host NodeAddr=127.0.0.1 Port=17001 CPUs=2 RealMemory=2000 State=UNKNOWN" \
        "NodeName=n2 NodeHostname=$host NodeAddr=127.0.0.1 Port=17002 CPUs=2 RealMemory=2000 State=UNKNOWN" \
        'PartitionName=main Nodes=n1,n2 Default=YES MaxTime=INFINITE State=UP' >"$folder/slurm.conf"
}

# Notes a daemon by the file that has its number.
note_daemon() {
    await 20 test -s "$1"
    started+=("$(<"$1")")
    say "started $2, process ${started[-1]}"
}

start_slurm() {
    local folder=$work/slurm node
    mkdir -p "$folder/state"
    write_slurm "$folder"
    export SLURM_CONF=$folder/slurm.conf
    [ -e /etc/munge/munge.key ] || mungekey -c
    if ! pgrep -x munged >/dev/null; then
        mkdir -p /run/munge && chown munge: /run/munge
        su munge -s /bin/sh -c /usr/sbin/munged
        note_daemon /run/munge/munged.pid munged
    fi
    slurmctld -f "$SLURM_CONF"
    note_daemon "$folder/ctld.pid" slurmctld
    for node in n1 n2; do
        slurmd -f "$SLURM_CONF" -N "$node"
        note_daemon "$folder/slurmd-$node.pid" "slurmd of $node"
    done
    await 60 has_idle_nodes
}

has_idle_nodes() {
    [ "$(sinfo -h -o '%D %t' | awk '$2 == "idle" { sum += $1 } END { print sum + 0 }')" = 2 ]
}

# Kills a running shard of the array and has Slurm queue it again at once.
requeue_one() {
    local at turn task
    for ((at = 0; at < 600; at++)); do
        task=$(squeue -h -r -t RUNNING -n shard -o '%i' | grep '_2$' | head -n 1 || true)
        if [ -n "$task" ]; then
            sleep 0.5
            scontrol requeue "$task"
            say "requeued $task in its middle"
            for ((turn = 0; turn < 50; turn++)); do
                sleep 0.2
                ! scontrol update "JobId=$task" StartTime=now 2>/dev/null || return 0
            done
            return 0
        fi
        sleep 0.1
    done
    fail 'no shard of the array ran'
}

check_slurm() {
    local status killer name
    needs slurmctld slurmd sbatch munged
    start_slurm
    cd "$work"
    say 'Slurm: an array of four shards, one requeued while it runs'
    requeue_one &
    killer=$!
    "$top/engines/slurm/submit" green.toml 4 slurm.txt >log 2>&1 || fail "slurm: $(tail -n 3 log)"
    wait "$killer" || fail 'slurm: nothing was requeued'
    same slurm slurm.txt green.txt
    status=0
    "$top/engines/slurm/submit" red.toml 4 slurm.txt >log 2>&1 || status=$?
    [ "$status" = 1 ] || fail "slurm: a job that fails: status $status: $(tail -n 3 log)"
    same 'slurm, a job that fails' slurm.txt red.txt
    printf '%s\n' '#!/bin/sh' "case \" \$* \" in *' --shard 3/4 '*) exit 3;; esac" "exec $RVTEST \"\$@\"" >broken
    chmod +x broken
    status=0
    RVTEST=$work/broken "$top/engines/slurm/submit" green.toml 4 missing.txt >log 2>&1 || status=$?
    [[ $status = 2 && ! -e missing.txt ]] || fail "slurm: a part is missing: status $status: $(tail -n 3 log)"
    say "slurm: a part is missing: status 2, $(tail -n 1 log)"
    mkdir '%a;touch pwned;'
    cd '%a;touch pwned;'
    # shellcheck disable=SC2016 # nothing may expand it
    name='-x $(touch pwned).toml'
    cp ../green.toml "./$name"
    "$top/engines/slurm/submit" "$name" 4 slurm.txt >log 2>&1 || fail "slurm, names that a shell would read: $(tail -n 3 log)"
    same 'slurm, names that a shell would read' slurm.txt ../green.txt
    [ -z "$(find . -name pwned)" ] || fail 'slurm: a name was run as a command'
    status=0
    "$top/engines/slurm/submit" ../green.toml '1,3' slurm.txt >log 2>&1 || status=$?
    if [ "$status" != 2 ] || ! grep -q 'error: invalid N' log; then
        fail "slurm, a number of shards: status $status: $(<log)"
    fi
    cd "$top"
}

for engine in "${engines[@]}"; do
    case $engine in
    make | yaml | parallel | slurm) "check_$engine" ;;
    *) fail "there is no engine '$engine': make, yaml, parallel, slurm" ;;
    esac
done
say 'all as it should be'
