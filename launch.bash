# shellcheck shell=bash
# Shared by the launchers `rvfleet` and `rvtest`, which source it: finds the requested program and runs it with the given arguments and
# standard input. It uses the first of these that exists:
#   1. the program in RVFLEET_BIN=DIR, whatever it was built from;
#   2. crates/NAME/out/NAME, if the stamp next to it says that it was built from exactly these sources;
#   3. programs/NAME, if programs/BUILT says the same and this machine can run it;
#   4. a new build, which proves each crate once for its sources.
# Sources are compared by contents, not by time, so a program from a pipeline's cache is used in a fresh checkout of the same sources.
# The program sees NAME as its own name, whatever its path: a path that is not UTF-8 would be an argument that it rejects.
# If there is no program to run, the status is 3.
programs=(rvfleet rvtest)

# Finds the clone by the path of this file; only a symbolic link needs a tool. `$(..)` strips trailing newlines, so the directory is
# printed with a slash at its end. `cd` does not search CDPATH for a path that begins with `/` or `./`.
find_root() {
    root=$1
    if [ -L "$root" ] && ! root=$(readlink -f -- "$root" 2>/dev/null); then
        echo 'launch.bash: error: cannot follow the symbolic link to this file: "readlink" failed' >&2
        exit 3
    fi
    [[ $root = /* ]] || root=./$root
    root=$(cd -P -- "${root%/*}/" && printf '%s/' "$PWD") || exit 3
    root=${root%/}
}

find_root "${BASH_SOURCE[0]}"
log=$root/crates/rvfleet/out/build.log

# ---- messages

# Two patterns for the start of a UTF-8 text: printable ASCII or one character; and a control or format character, which a terminal
# interprets or a reader cannot see: C1, Cf, and the line and paragraph separators.
character=$'^([\x20-\x7e]+|[\xc2-\xdf][\x80-\xbf]|\xe0[\xa0-\xbf][\x80-\xbf]|[\xe1-\xec\xee\xef][\x80-\xbf]{2}|\xed[\x80-\x9f][\x80-\xbf]'
character+=$'|\xf0[\x90-\xbf][\x80-\xbf]{2}|[\xf1-\xf3][\x80-\xbf]{3}|\xf4[\x80-\x8f][\x80-\xbf]{2})'
hidden=$'^(\xc2[\x80-\x9f\xad]|\xd8[\x80-\x85\x9c]|\xdb\x9d|\xdc\x8f|\xe0\xa2[\x90\x91]|\xe0\xa3\xa2|\xe1\xa0\x8e|\xe2\x80[\x8b-\x8f\xa8-\xae]'
hidden+=$'|\xe2\x81[\xa0-\xaf]|\xef\xbb\xbf|\xef\xbf[\xb9-\xbb]|\xf0\x91\x82\xbd|\xf0\x91\x83\x8d|\xf0\x93\x90[\xb0-\xbf]|\xf0\x9b\xb2[\xa0-\xa3]'
hidden+=$'|\xf0\x9d\x85[\xb3-\xba]|\xf3\xa0[\x80\x81][\x80-\xbf])'

# Prints a text as the programs print it: bytes of hidden characters, and bytes that are not UTF-8, as \xNN. Runs in a subshell whose
# locale treats each byte as a character.
printable() (
    LC_ALL=C
    rest=$1
    while [ -n "$rest" ]; do
        if [[ ! $rest =~ $hidden && $rest =~ $character ]]; then
            printf '%s' "${BASH_REMATCH[0]}"
            rest=${rest:${#BASH_REMATCH[0]}}
        else
            printf '\\x%02x' "'$rest"
            rest=${rest:1}
        fi
    done
)

# Writes a message to standard error.
say() {
    printf '%s: %s\n' "$asked" "$(printable "$1")" >&2
}

# Reports why there is no program, with a likely fix, and exits with status 3.
#   not_had REASON [HELP]
not_had() {
    say "error: $1"
    [ $# = 1 ] || printf '    help: %s\n' "$(printable "$2")" >&2
    exit 3
}

# Exits if one of these tools is missing; otherwise, its empty output would be mistaken for a result.
need() {
    local tool
    for tool in "$@"; do
        type -P "$tool" >/dev/null || not_had "\"$tool\" not found on PATH"
    done
}

# ---- the sources of a program

# The lines of crates.txt for the crates that the programs use. Each crate comes after those that it uses; the crates that only tests use
# come last, and are left out.
crate_lines() {
    sed -n '/^samples:/q; /^[^#]/p' "$root/crates.txt"
}

# One line that identifies the sources of both programs: their code, definitions and proofs, and which crate uses which.
sources() {
    local folders
    mapfile -t folders < <(crate_lines | sed 's/:.*//')
    (cd "$root" && {
        sed '/^samples:/,$d' crates.txt
        cat HANDLES
        # A build writes to `out`, where it also makes directories with these names.
        find "${folders[@]/#/crates/}" -name out -prune -o \( -path '*/src/*' -o -path '*/specs/*' -o -path '*/proofs/*' \) -type f -print0 |
            LC_ALL=C sort -z | xargs -0 sha256sum
    } | sha256sum | cut -d ' ' -f 1)
}

digest() {
    sha256sum <"$1" | cut -d ' ' -f 1
}

# The toolchain's name; empty if it is not installed, since a program that is already built does not need it.
toolchain() {
    rt version 2>/dev/null || true
}

# ---- existing programs

stamp() {
    echo "$root/crates/$1/out/built"
}

# Writes a stamp next to each built program: its sources, its own digest and the toolchain. The caller passes the sources as they were
# before the build, so a program whose sources changed in the meantime counts as stale. The digest is there because `rt` may replace the
# program.
stamp_programs() {
    local name
    for name in "${programs[@]}"; do
        printf '%s\n' "$1" "$(digest "$root/crates/$name/out/$name")" "$(toolchain)" >"$(stamp "$name")" || return 1
    done
}

# Whether crates/NAME/out/NAME was built from these sources, and by the installed toolchain, if there is one.
is_built() {
    local lines=() rt file=$root/crates/$1/out/$1
    [ -x "$file" ] && [ -r "$(stamp "$1")" ] || return 1
    mapfile -t lines <"$(stamp "$1")"
    [ "${lines[0]:-}" = "$2" ] && [ "${lines[1]:-}" = "$(digest "$file")" ] || return 1
    rt=$(toolchain)
    [ -z "$rt" ] || [ "${lines[2]:-}" = "$rt" ]
}

# Whether programs/NAME was built from these sources, according to programs/BUILT, and runs on this machine.
is_stored() {
    local file=$root/programs/$1 built=$root/programs/BUILT
    [ -x "$file" ] && grep -qsx "sources $2" "$built" && grep -qsx "sha256 $(digest "$file") $1" "$built" || return 1
    starts "$1" "$file"
}

# Whether a program starts on this machine: it exits with one of its own statuses, even if only because it is out of memory. If the system
# or the loader rejects it, the status is another one.
starts() {
    local status=0
    (exec -a "$1" -- "$2" --help) >/dev/null 2>&1 </dev/null || status=$?
    [[ $status = [023] ]]
}

# The path of an existing program, rvfleet or rvtest; fails if there is none. A caller that already has the line of the sources passes it,
# since computing it takes a fifth of a second.
#   program NAME [SOURCES]
program() {
    local sources_now=${2:-}
    if [ -n "${RVFLEET_BIN:-}" ]; then
        echo "$RVFLEET_BIN/$1"
        return
    fi
    [ -n "$sources_now" ] || sources_now=$(sources) || return 1
    if is_built "$1" "$sources_now"; then
        echo "$root/crates/$1/out/$1"
    elif is_stored "$1" "$sources_now"; then
        echo "$root/programs/$1"
    else
        return 1
    fi
}

# A message on why programs/NAME cannot be used.
why_not_stored() {
    local built=$root/programs/BUILT
    if ! [ -x "$root/programs/$1" ]; then
        echo "programs/$1 not found, or not executable"
    elif ! [ -r "$built" ]; then
        echo 'programs/BUILT not found'
    elif ! grep -qx "sources $2" "$built"; then
        echo 'programs/ was built from other sources'
    elif ! grep -qx "sha256 $(digest "$root/programs/$1") $1" "$built"; then
        echo "programs/$1 differs from the one that programs/BUILT describes"
    else
        echo "programs/$1 does not run on this machine: it needs x86-64 Linux with glibc $(sed -n 's/^glibc //p' "$built") or later"
    fi
}

# ---- a build of several crates at a time

# How many checks to run at a time: one for each processor and each 5 GB of memory.
lanes() {
    awk -v processors="$(nproc)" '/^MemAvailable:/ {
        lanes = int($2 / 5000000)
        if (processors < lanes) lanes = processors
        print lanes < 1 ? 1 : lanes
    }' /proc/meminfo
}

# Copies the programs' sources into a directory, without tests and must-fail edits: `rt ci` proves and builds everything that it finds.
copy_sources() {
    local folders
    mapfile -t folders < <(crate_lines | sed 's/:.*//')
    crate_lines >"$1/crates.txt"
    cp "$root/HANDLES" "$1"
    (cd "$root" && find "${folders[@]/#/crates/}" \( -name out -o -name must-fail \) -prune -o -type f -print0 |
        xargs -0 cp --parents -t "$1")
}

# Proves and builds the crates in a copy, and reports progress now and then. Running `rt lib` in several directories at a time would not
# help, since each would wait for those that build the crates it uses. `rt` gives idle processors to a crate that others wait for, so,
# unlike in the gate, a crate is not limited to one processor.
prove() {
    local ticks=0 proved seen=0
    set -m
    (cd "$1" && unset RT_JOBS && exec rt ci) >"$log" 2>&1 </dev/null &
    building=$!
    set +m
    while kill -0 "$building" 2>/dev/null; do
        sleep 0.2
        ticks=$((ticks + 1))
        [ $((ticks % 50)) = 0 ] || continue
        proved=$(grep -cE '^rt: [a-z_]+ (proved|is kept)' "$log" || true)
        [ "$proved" = "$seen" ] || say "$proved of $(crate_lines | wc -l) crates proved, $((SECONDS - began)) s"
        seen=$proved
    done
    wait "$building"
}

# Ends the build with everything that `rt` started, and then this script with the same signal.
end_build() {
    kill -TERM -- "-$building" 2>/dev/null || true
    wait "$building" 2>/dev/null || true
    rm -rf "$copy"
    trap - "$1"
    kill -s "$1" $$
}

build() {
    local began=$SECONDS building='' copy signal name
    type -P rt >/dev/null ||
        not_had "no program to run: $(why_not_stored "$asked" "$1"), and \"rt\" not found on PATH to build one" \
            'install the Rattle kit, which has rt, or set RVFLEET_BIN to a directory with the programs'
    need cp mkdir mktemp rm sleep tail wc
    if ! mkdir -p "$root"/crates/{rvfleet,rvtest}/out 2>/dev/null || ! : 2>/dev/null >"$log"; then
        not_had "$log cannot be written"
    fi
    copy=$(mktemp -d) || not_had 'no temporary directory for the build'
    say "proving and building the $(crate_lines | wc -l) crates of both programs, once for these sources; log: $log"
    for signal in INT TERM HUP PIPE; do
        # shellcheck disable=SC2064 # the signal's name now
        trap "end_build $signal" "$signal"
    done
    copy_sources "$copy" || not_had "the sources below $root cannot be copied to $copy"
    if ! prove "$copy"; then
        tail -n 20 "$log" >&2
        rm -rf "$copy"
        not_had "the build failed; log: $log"
    fi
    for name in "${programs[@]}"; do
        cp "$copy/crates/$name/out/$name" "$root/crates/$name/out/$name" || not_had "$root/crates/$name/out cannot be written"
    done
    rm -rf "$copy"
    stamp_programs "$1" || not_had "the programs' stamps cannot be written below $root/crates"
    trap - INT TERM HUP PIPE
}

# ---- the requested program

# Exits if RVFLEET_BIN does not name a directory with the program. A launcher in it, of this or another clone, would start itself forever.
check_given() {
    local file=$RVFLEET_BIN/$asked
    if [ ! -f "$file" ] || [ ! -x "$file" ]; then
        not_had "RVFLEET_BIN=$RVFLEET_BIN: no executable file \"$asked\" in this directory"
    elif [ "$file" -ef "$root/$asked" ]; then
        not_a_program "$root"
    elif [ -e "$RVFLEET_BIN/launch.bash" ]; then
        not_a_program "$RVFLEET_BIN"
    fi
}

not_a_program() {
    not_had "RVFLEET_BIN=$RVFLEET_BIN: \"$asked\" in this directory is a launcher, not a program" \
        "the programs of a clone are in its directory programs: RVFLEET_BIN=$1/programs"
}

launch() {
    local path sources_now
    asked=$1
    shift
    if [ -n "${RVFLEET_BIN:-}" ]; then
        check_given
        path=$RVFLEET_BIN/$asked
    else
        need cat cut find grep sed sha256sum sort xargs
        sources_now=$(sources) || not_had "the sources below $root cannot be read"
        if ! path=$(program "$asked" "$sources_now"); then
            build "$sources_now"
            path=$(program "$asked") || not_had "the sources below $root changed during the build"
        fi
    fi
    # Without this, a script in the directory of RVFLEET_BIN that runs this launcher would start itself again.
    unset RVFLEET_BIN
    exec -a "$asked" -- "$path" "$@"
}
