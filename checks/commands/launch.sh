#!/usr/bin/env bash
# Which program `./rvtest` runs, and how it builds one: in a small tree of its own, whose programs are scripts that say where they lie,
# and whose `rt` is a script that notes what it builds.
#   checks/commands/launch.sh
set -euo pipefail
cd "$(dirname "$0")/../.."
top=$PWD
# Who runs this may have a folder of programs for other checks.
unset RVFLEET_BIN
work=$(mktemp -d)
trap 'rm -rf "$work"' EXIT

fail() {
    echo "checks/commands/launch.sh: $*" >&2
    exit 1
}

# A tree of five crates: two libraries, one that stands on both, and the programs.
make_tree() {
    rm -rf "$work/tree"
    mkdir -p "$work/tree/programs"
    cd "$work/tree"
    cp "$top/launch.bash" "$top/rvtest" "$top/rvfleet" "$top/HANDLES" .
    printf '%s\n' '# Crates.' 'left:' 'right: std' 'both: left right' 'rvfleet: both' 'rvtest: both' 'samples: hex' >crates.txt
    for crate in left right both rvfleet rvtest; do
        mkdir -p "crates/$crate/src"
        echo "// $crate" >"crates/$crate/src/lib.rt"
    done
}

# A program that says which it is.
make_program() {
    printf '#!/bin/sh\necho "%s"\n' "$2" >"$1"
    chmod +x "$1"
}

# Puts programs into programs/ that are of the tree's sources.
store() {
    make_program programs/rvfleet stored
    make_program programs/rvtest stored
    # shellcheck source=launch.bash
    (source ./launch.bash && {
        echo "sources $(sources)"
        for name in rvfleet rvtest; do echo "sha256 $(digest "programs/$name") $name"; done
    } >programs/BUILT)
}

# Runs a command on a PATH, within ten seconds: its status, and a text that it must print. What lies in the current directory is never
# sourced.
#   runs NAME PATH STATUS TEXT COMMAND..
runs() {
    local name=$1 path=$2 expected=$3 text=$4 status=0
    shift 4
    (PATH=$path && exec "$timeout" 10 "$@") >"$work/out" 2>"$work/err" </dev/null || status=$?
    if [ "$status" != "$expected" ] || ! grep -qF -- "$text" "$work/out" "$work/err"; then
        fail "$name: status $status, expected $expected and '$text': $(<"$work/out") $(<"$work/err")"
    fi
    ! grep -qF planted "$work/out" "$work/err" || fail "$name: sourced a file that is not its own: $(<"$work/out") $(<"$work/err")"
    echo "$name: status $status, $text"
}

# Runs the tree's rvtest, on a PATH that has these folders in front.
#   launches NAME STATUS TEXT [FOLDER]
launches() {
    runs "$1" "${4:+$4:}$bare" "$2" "$3" ./rvtest --version
}

# A PATH without a toolchain: the commands of this machine that launch.bash calls.
bare=$work/bin
timeout=$(type -P timeout)
tools=(readlink sed find sort xargs sha256sum cut cat grep)
mkdir "$bare"
for command in bash sh env mkdir tail rm "${tools[@]}"; do
    ln -s "$(type -P "$command")" "$bare/$command"
done

diff <(sed s/rvfleet/rvtest/g rvfleet) rvtest >"$work/out" || fail "rvfleet and rvtest differ in more than their name: $(<"$work/out")"

# ---- which program is taken

make_tree
store
launches 'programs/ of these sources' 0 stored
make_program "$work/rvtest" given
RVFLEET_BIN=$work launches 'the folder of RVFLEET_BIN' 0 given
RVFLEET_BIN=$work/none launches 'a folder that is not there' 3 "rvtest: error: RVFLEET_BIN=$work/none: no executable file \"rvtest\" in this directory"
mkdir -p crates/{rvfleet,rvtest}/out
make_program crates/rvfleet/out/rvfleet built
make_program crates/rvtest/out/rvtest built
launches 'a build without a stamp' 0 stored
# shellcheck source=launch.bash
(PATH=$bare; source ./launch.bash && stamp_programs "$(sources)")
launches 'a build of these sources' 0 built
make_program crates/rvtest/out/rvtest other
launches 'a build that was put in its place' 0 stored

# What is not taken: why that is told, and the change.
while IFS='|' read -r reason change; do
    make_tree
    store
    eval "$change"
    launches "not taken: $change" 3 "rvtest: error: no program to run: $reason, and \"rt\" not found on PATH to build one"
done <<'END'
programs/rvtest differs from the one that programs/BUILT describes|echo >>programs/rvtest
programs/ was built from other sources|echo >>crates/left/src/lib.rt
programs/ was built from other sources|sed -i s/left:/left:std/ crates.txt
programs/BUILT not found|rm programs/BUILT
programs/rvtest not found, or not executable|chmod -x programs/rvtest
END
make_tree
store
printf '\177ELF' >programs/rvtest
sed -i "s/^sha256 .* rvtest$/sha256 $(sha256sum <programs/rvtest | cut -d ' ' -f 1) rvtest/; \$ a glibc 2.34" programs/BUILT
launches 'a program that this machine cannot run' 3 'programs/rvtest does not run on this machine: it needs x86-64 Linux with glibc 2.34 or later'

# ---- how the program is run

# The shell, as a program that shows the name that it was called by.
make_tree
store
cp "$(type -P bash)" programs/rvtest
sed -i "s/^sha256 .* rvtest$/sha256 $(sha256sum <programs/rvtest | cut -d ' ' -f 1) rvtest/" programs/BUILT
mv "$work/tree" "$work/"$'\xff'
cd "$work/"$'\xff'
# shellcheck disable=SC2016 # the program expands it
runs 'a clone whose folder has a name that is not UTF-8' "$bare" 0 'called rvtest' ./rvtest -c 'echo "called $0"'
cd "$work"
rm -r "$work/"$'\xff'
# rvtest itself ends with 2 where it cannot read its own name, and with 3 where memory ends.
for status in 2 3; do
    make_tree
    store
    # shellcheck disable=SC2016 # the program expands it
    printf '#!/bin/sh\necho stored\n[ "$1" != --help ] || exit %s\n' "$status" >programs/rvtest
    sed -i "s/^sha256 .* rvtest$/sha256 $(sha256sum <programs/rvtest | cut -d ' ' -f 1) rvtest/" programs/BUILT
    launches "a program that ends its help with $status" 0 stored
done

# ---- which files the launcher is of

# A folder with a file that no launcher may source.
plant() {
    mkdir -p "$1"
    echo 'echo planted; exit 1' >"$1/launch.bash"
}

make_tree
store
plant "$work/elsewhere"
cd "$work/elsewhere"
for tool in "${tools[@]}"; do
    mkdir -p "$work/without"
    cp -P "$bare"/* "$work/without"
    rm "$work/without/$tool"
    if [ "$tool" = readlink ]; then
        runs "no $tool" "$work/without" 0 stored ../tree/rvtest
    else
        runs "no $tool" "$work/without" 3 "rvtest: error: \"$tool\" not found on PATH" ../tree/rvtest
    fi
done
runs 'by its path' "$bare" 0 stored ../tree/rvtest
runs 'by PATH' "$work/tree:$bare" 0 stored rvtest
runs 'bash rvtest, by PATH' "$work/tree:$bare" 0 stored bash rvtest
runs 'bash rvtest, by a relative PATH' "../tree:$bare" 0 stored bash rvtest
CDPATH=$work/elsewhere runs 'a CDPATH' "$bare" 0 stored ../tree/rvtest
runs 'the script on standard input' "$bare" 1 BASH_SOURCE bash -c 'bash -s <../tree/rvtest'
mkdir -p links
ln -sfn ../../tree/rvtest links/rvtest
ln -sfn "$work/elsewhere/links/rvtest" links/again
ln -sfn ../../tree links/tree
runs 'a link' "$bare" 0 stored links/rvtest
runs 'a link to a link' "$bare" 0 stored links/again
runs 'a link to the folder' "$bare" 0 stored links/tree/rvtest
rm "$work/without/"*
cp -P "$bare"/* "$work/without"
rm "$work/without/readlink"
runs 'a link, and no readlink' "$work/without" 3 'rvtest: error: cannot follow the symbolic link to this script: "readlink" failed' links/rvtest
# The scripts beside them, each with what it would take from the current directory, or from the one above.
plant "$work"
mkdir -p checks
cp launch.bash checks/run
chmod +x checks/run
while read -r -a command; do
    runs "no readlink: ${command[*]}" "$work/without" 127 'readlink: command not found' "$top/${command[0]}" "${command[@]:1}"
done <<'END'
dev tests
programs/update
packaging/build
packaging/check launch.bash
END
rm -r "$work/launch.bash" checks
plant "$work/tree/name"
cp -r "$work/tree" "$work/"$'name\n'
plant "$work/name"
runs 'a folder whose name ends in a newline' "$bare" 0 stored "$work/"$'name\n/rvtest'
cd "$work/"$'name\n'
runs 'a folder whose name ends in a newline, from within' "$bare" 0 stored ./rvtest
cd "$work/tree"

# ---- what RVFLEET_BIN may not name

launcher='"rvtest" in this directory is a launcher, not a program'
RVFLEET_BIN=$work/tree launches 'RVFLEET_BIN names the clone' 3 "rvtest: error: RVFLEET_BIN=$work/tree: $launcher"
grep -qxF "    help: the programs of a clone are in its directory programs: RVFLEET_BIN=$work/tree/programs" "$work/err" || fail "no help: $(<"$work/err")"
RVFLEET_BIN=. launches 'RVFLEET_BIN names the clone by a relative path' 3 "$launcher"
RVFLEET_BIN=$work/elsewhere/links launches 'RVFLEET_BIN names a folder with a link to the launcher' 3 "$launcher"
RVFLEET_BIN=$work/$'name\n' launches 'RVFLEET_BIN names another clone' 3 "$launcher"
mkdir -p "$work/wrapper"
printf '#!/bin/sh\nexec %s/tree/rvtest "$@"\n' "$work" >"$work/wrapper/rvtest"
chmod +x "$work/wrapper/rvtest"
RVFLEET_BIN=$work/wrapper launches 'RVFLEET_BIN names a script that runs the launcher' 0 stored
mkdir -p ./-x
make_program ./-x/rvtest given
RVFLEET_BIN=-x launches 'RVFLEET_BIN begins with a dash' 0 given

# What a terminal would take for a command, or a reader not see, is shown as bytes.
while IFS='|' read -r given shown; do
    RVFLEET_BIN=$(printf '%b' "$given") launches "shown: $shown" 3 "RVFLEET_BIN=$shown: no executable file"
done <<'END'
a\x1b[31m\x07|a\x1b[31m\x07
a\xe2\x80\xaeb|a\xe2\x80\xaeb
\xef\xbb\xbf\xc2\x85\xc2\xad\x7f|\xef\xbb\xbf\xc2\x85\xc2\xad\x7f
\xff\xed\xa0\x80\xc0\xaf|\xff\xed\xa0\x80\xc0\xaf
j\xc3\xbcrgen \xe2\x82\xac \xf0\x9f\x98\x80|jürgen € 😀
END
cd "$work"

# ---- a build

# An rt that notes the crates that it is asked for, with what lies in their folders, and fails at one of a name.
make_rt() {
    mkdir -p "$work/kit"
    cat >"$work/kit/rt" <<END
#!/bin/bash
[ "\$1" != version ] || { echo kit; exit; }
echo "\$* by \${RT_JOBS:-itself}" >>$work/noted
cat crates.txt >>$work/noted
find crates -type f | sort >>$work/noted
[ ! -d "crates/$1" ] || { echo "$1 is not proved"; exit 1; }
for name in rvfleet rvtest; do
    mkdir -p crates/\$name/out
    printf '#!/bin/sh\necho made\n' >crates/\$name/out/\$name
    chmod +x crates/\$name/out/\$name
done
END
    chmod +x "$work/kit/rt"
    for command in sleep chmod mktemp cp ls wc; do
        ln -sf "$(type -P "$command")" "$work/kit/"
    done
    rm -f "$work/noted"
}

make_tree
mkdir -p crates/left/must-fail crates/samples/src crates/rvtest/data
touch crates/left/must-fail/wrong.edit crates/samples/src/lib.rt crates/rvtest/data/list.toml
make_rt none
launches 'a build' 0 made "$work/kit"
grep -qx 'ci by itself' "$work/noted" || fail "rt was called otherwise: $(<"$work/noted")"
for wanted in 'both: left right' crates/left/src/lib.rt crates/rvtest/data/list.toml; do
    grep -qx "$wanted" "$work/noted" || fail "the copy has no $wanted: $(<"$work/noted")"
done
! grep -E 'samples|must-fail' "$work/noted" || fail 'the copy has tests or edits'
rm "$work/noted"
launches 'a second start' 0 made "$work/kit"
[ ! -e "$work/noted" ] || fail "it was built again: $(<"$work/noted")"
make_tree
make_rt both
launches 'a crate that is not proved' 3 'both is not proved' "$work/kit"

# What a build needs and does not have: it does not begin.
make_tree
make_rt none
mkdir "$work/kit/without"
for tool in mktemp cp wc sleep; do
    rm -f "$work/kit/without/"*
    cp -P "$work/kit/"[!w]* "$work/kit/wc" "$work/kit/without"
    rm "$work/kit/without/$tool"
    launches "a build, and no $tool" 3 "rvtest: error: \"$tool\" not found on PATH" "$work/kit/without"
done
: >crates/rvtest/out
mv "$work/tree" "$work/"$'\e[31m'
cd "$work/"$'\e[31m'
launches 'a build in a clone whose name has control bytes' 3 "rvtest: error: $work/\\x1b[31m/crates/rvfleet/out/build.log cannot be written" "$work/kit"
[ ! -e "$work/noted" ] || fail "it was built: $(<"$work/noted")"
