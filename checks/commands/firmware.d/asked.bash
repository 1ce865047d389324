# shellcheck shell=bash disable=SC2154,SC2317 # checks/commands/firmware.sh gives kit and top; stale calls each `change`
# What a build asks for and does not find, dates that matter to the compiler, the kit itself, and two makes at once.

# Files that __has_include asks for in ways other than by a name in quotes behind it, or by one that a search does not see.
case_stale_asked() {
    local rest='
#define CODE 1
#else
#define CODE 0
#endif
int main(void) { return CODE; }' text='#define TEXT_OF(it) #it
#define TEXT(it) TEXT_OF(it)
#if __has_include(TEXT(FOLDER/more.h))' long
    mkdir -p inc far
    # asks WHAT SOURCE FILE [OPTION..]
    asks() {
        local what=$1 file=$3
        put t/a.c <<<"$2$rest"
        echo "-Iinc ${*:4}" >t/a.flags
        change() { put "$file" </dev/null; }
        stale "$what"
        rm "$file"
    }
    asks 'by another name' '#define HAS __has_include
#if HAS("more.h")' inc/more.h
    asks 'by an option' '#if HAS("more.h")' inc/more.h "'-DHAS(it)=__has_include(it)'"
    asks 'behind a comment' '#if __has_include /* of
two lines */ ("more.h")' inc/more.h
    asks 'a name with a backslash' '#if __has_include("a\b.h")' 'inc/a\b.h'
    long=$(printf 'd%.0s' {1..200})
    asks 'a long name' "#if __has_include(\"$long/$long/more.h\")" "inc/$long/$long/more.h"
    mkdir -p inc/sub/.build
    asks "a folder with another tool's .build" "$text" inc/sub/more.h -DFOLDER=sub
    asks_outside "#define FOLDER $PWD/far
$text" 'a computed name of the root'
    asks_outside "$text" 'a computed name above, by an option' -DFOLDER=../far
    put inc/folder.h <<<'#define FOLDER ../far'
    asks_outside "#include \"folder.h\"
$text" 'a computed name above, by a header'
}

# A name outside of the directories that are searched: such a source is compiled each time.
#   asks_outside SOURCE WHAT [OPTION..]    with the text and the rest of case_stale_asked
asks_outside() {
    put t/a.c <<<"$1$rest"
    echo "-Iinc ${*:3}" >t/a.flags
    check "$2: as it was" 0 '1 job: 1 passed, 0 failed'
    put far/more.h </dev/null
    check "$2: changed" 2 '1 job: 0 passed, 1 failed'
    rm far/more.h
}

case_stale_files_of_specs() {
    exits t/a.c 0
    put extra.c <<<'__attribute__((constructor)) static void fails(void) { __builtin_trap(); }'
    echo "-specs=$PWD/board.specs" >t/a.flags
    printf '*lib:\n+ %%:if-exists(%s/extra.o)\n\n' "$PWD" >board.specs
    change() { riscv64-unknown-elf-gcc -march=rv32imc -mabi=ilp32 -c extra.c; }
    stale 'a file that specs ask for'
}

# GCC takes two files with `#pragma once` for one if their contents and dates are the same.
case_stale_once() {
    local once='#pragma once'
    put t/a.c <<<'#include "../first/it.h"
#include "../second/it.h"
int main(void) { return code; }'
    put first/it.h <<<"$once
static const int code = 0;"
    put second/it.h <first/it.h
    touch -d 2020-01-01 first/it.h second/it.h
    change() { touch -d 2020-01-02 second/it.h; }
    stale 'a date under #pragma once'
    touch -d 2020-01-02 first/it.h
    check 'both have the other date' 0 '1 job: 1 passed, 0 failed'
    touch -d 2020-01-03 first/it.h second/it.h
    check 'and a third one' 0 '1 job: 1 passed, 0 failed'
    hides 'CC '
}

# A kit whose scripts compile in another way, though no words of make's are different.
case_stale_scripts() {
    put t/a.c <<<'#ifdef CODE
int main(void) { return CODE; }
#else
int main(void) { return 0; }
#endif'
    cp -r "$kit" mine
    local kit=$PWD/mine
    change() { sed -i 's/command = \[\*words, /&"-DCODE=1", /' mine/building/steps.py; }
    stale "a script of the kit's"
}

# The list of an earlier call is not run in the place of one that cannot be written.
case_list_not_replaced() {
    exits t/a.c 0
    check 'as it was' 0 '1 job: 1 passed, 0 failed'
    echo 1 >t/a.exit
    rm t/build/t.toml
    mkdir -p t/build/t.toml/inner
    check 'the list cannot be replaced' 2 't/build/t.toml: error: '
    hides passed
    [ -z "$(find t/build -name '*.new')" ] || fail "a new list is left: $(find t/build -name '*.new')"
}

# What the system says of a file of the build folder is told in one line, with the file's name.
case_system_errors() {
    local file
    # tells WHAT TEXT [WORD..]
    tells() {
        check "$1" 2 "$2" "${@:3}"
        hides Traceback
        hides passed
        [ "$(grep -vc '^make' err)" = 1 ] || fail "it is told in more than one line: $(<err)"
    }
    exits t/a.c 0
    for file in .build/lock .marks/lock; do
        mkdir -p "t/build/$file/inner"
        tells "a folder in the place of $file" "t/build/$file: error: Is a directory"
        rm -r "t/build/$file"
    done
    for file in .build .marks; do
        rm -rf "t/build/$file"
        : >"t/build/$file"
        tells "a file in the place of $file" "t/build/$file: error: File exists"
        rm "t/build/$file"
    done
    # The file system is full when these files are written; the system names no file then.
    put full/sitecustomize.py <<<'import builtins, os
real = builtins.open
def opened(path, mode="r", *words, **more):
    return real("/dev/full" if "w" in mode and os.environ["FULL"] in str(path) else path, mode, *words, **more)
builtins.open = opened'
    rm -r t/build
    FULL=t.toml. PYTHONPATH=$PWD/full tells 'no space for the list' 't/build/t.toml: error: No space left on device'
    rm -r t/build
    FULL=images/a.json. PYTHONPATH=$PWD/full check 'no space for a record' 2 't/build/.build/images/a.json: error: No space left on device'
    shows '1 job: 0 passed, 1 failed'
    if [ "$(id -u)" != 0 ]; then
        chmod a-w t/build/.build/lock
        tells "another user's lock" 't/build/.build/lock: error: Permission denied'
    fi
}

# Another make builds the tests with other options before this one runs them.
case_two_makes() {
    put t/a.c <<<'int main(void) { return CODE; }'
    exits t/b.c 0
    put other <<END
#!/bin/sh
if [ "\$1" = run ]; then
    make -s -f "$kit/Makefile" RVTEST="$top/rvtest" check TESTS=t CFLAGS="\$FLAGS" ONLY="\$NAMES" >/dev/null || exit 9
fi
exec "$top/rvtest" "\$@"
END
    chmod +x other
    FLAGS=-DCODE=0 NAMES='' check 'images of another make' 2 't/build/a.elf: error: another build replaced it' RVTEST="$PWD/other" CFLAGS=-DCODE=1
    FLAGS=-DCODE=0 NAMES='' check 'the same images' 0 '2 jobs: 2 passed, 0 failed' RVTEST="$PWD/other" CFLAGS=-DCODE=0
    FLAGS=-O2 NAMES=b check 'images of other tests' 0 '1 job: 1 passed, 0 failed' RVTEST="$PWD/other" CFLAGS=-DCODE=0 ONLY=a
    ends 'two goals of one make' 0 CALLGRIND made check profile TESTS=t CFLAGS=-DCODE=0
}

# Waits until a command succeeds, for at most ten seconds.
until_it() {
    local left
    for left in {100..0}; do
        ! "$@" 2>/dev/null || return 0
        sleep 0.1
    done
    fail "it did not come: $* ($left tries left): $(tail -n 5 first second 2>/dev/null)"
}

# What is being built is not removed, and a build that waited while the folder was removed has the lock of the new folder.
case_clean_waits() {
    local build clean
    exits t/a.c 0
    put slow <<'END'
#!/bin/sh
: >begun
while [ -e hold ]; do sleep 0.1; done
exec riscv64-unknown-elf-gcc "$@"
END
    chmod +x slow
    : >hold
    made check TESTS=t CC="$PWD/slow" >first 2>&1 &
    build=$!
    until_it [ -e begun ]
    made clean TESTS=t >second 2>&1 &
    clean=$!
    until_it grep -q 'waiting for another build in t/build/.build' second
    flock -n t/build/.build/lock true && fail 'the folder is not locked while it is built'
    rm hold
    wait "$clean" || fail "make clean: status $?: $(<second)"
    wait "$build" || true
    ! grep Traceback first second || fail 'a traceback is shown'

    rm -f begun
    mkdir -p t/build/.build
    : >hold
    exec 9>t/build/.build/lock
    flock 9
    made check TESTS=t CC="$PWD/slow" >first 2>&1 9>&- &
    build=$!
    until_it grep -q 'waiting for another build in t/build/.build' first
    rm -r t/build
    exec 9>&-
    until_it [ -e begun ]
    [ -e t/build/.build/lock ] || fail 'a build has no lock in its folder'
    flock -n t/build/.build/lock true && fail 'a build does not have the lock of its folder'
    rm hold
    wait "$build" || fail "status $?: $(<first)"
    grep '1 job: 1 passed, 0 failed' first

    put cleaning <<END
#!/bin/sh
[ "\$1" != list ] || make -s -f "$kit/Makefile" clean TESTS=t >&2
exec "$top/rvtest" "\$@"
END
    chmod +x cleaning
    check 'cleaned before the list is written' 2 'error: another build replaced it meanwhile' RVTEST="$PWD/cleaning"
    sed -i 's/!= list/!= run/' cleaning
    check 'cleaned before the run' 2 'error: another build replaced it meanwhile' RVTEST="$PWD/cleaning"

    ends 'the images of other goals' 0 CALLGRIND made profile TESTS=t
    ends 'to be debugged' 0 'rvtest gdb' made debug TESTS=t TEST=a GDB=true
    mkdir -p outside t/build/inner
    echo kept >outside/file
    ln -s ../../outside t/build/link
    ends 'cleaned' 0 'CLEAN t/build' made clean TESTS=t
    [ "$(ls -A t)" = a.c ] || fail "something is left: $(find t)"
    [ "$(<outside/file)" = kept ] || fail 'more is removed than what was built'
    ends 'cleaned again' 0 'CLEAN t/build' made clean TESTS=t
    check 'and built' 0 '1 job: 1 passed, 0 failed'
}

# A program in the place of rvtest that runs another make first.
#   before WORD..    words that the shell reads again
before() {
    put other <<END
#!/bin/sh
if [ "\$1" = run ] || [ "\$1" = accept ]; then
    $* >/dev/null || exit 9
fi
exec "$top/rvtest" "\$@"
END
    chmod +x other
}

# Another make writes a list with other memory before this one runs its own.
case_two_lists() {
    local all='[{ base = 0x8000_0000, size = 0x10_0000 }]'
    put t/a.c <<<'int main(void) { *(volatile int *)main = 0; return 0; }'
    check 'a store to code' 2 'FAIL a: fault store-access'
    before make -s -f "$kit/Makefile" RVTEST="$top/rvtest" list TESTS=t "REGION='$all'"
    check 'the list of another make' 2 't/build/t.toml: error: another build replaced it' RVTEST="$PWD/other"
    check 'the same list' 0 '1 job: 1 passed, 0 failed' RVTEST="$PWD/other" REGION="$all"
    : >t/a.out
    ends 'accepted by the list of another make' 2 't/build/t.toml: error: another build replaced it' made accept TESTS=t RVTEST="$PWD/other"
    ends 'two goals side by side' 0 CALLGRIND made -j2 check profile TESTS=t REGION="$all"
}

# Makes in containers of their own may have the same number.
case_two_makes_of_one_number() {
    local contained=(unshare --user --map-root-user --pid --fork)
    if ! "${contained[@]}" true 2>/dev/null; then
        echo 'two makes of one number: passed over, since this user may not make containers'
        return
    fi
    put t/a.c <<<'int main(void) { return CODE; }'
    before "${contained[@]}" make -s -f "$kit/Makefile" RVTEST="$top/rvtest" check TESTS=t CFLAGS=-DCODE=0
    ends 'images of another container' 2 't/build/a.elf: error: another build replaced it' \
        "${contained[@]}" make --no-print-directory -f "$kit/Makefile" RVTEST="$PWD/other" check TESTS=t CFLAGS=-DCODE=1
}

# A file that the linker writes does not make it link again, unless it is gone.
case_maps() {
    local options
    exits t/a.c 0
    for options in -Wl,-Map=a.map -Wl,-Map,a.map '-Xlinker -Map -Xlinker a.map'; do
        echo "$options" >t/a.flags
        check "$options" 0 '1 job: 1 passed, 0 failed'
        check 'nothing changed' 0 '1 job: 1 passed, 0 failed'
        hides 'LD '
        rm a.map
        check 'the map is gone' 0 '1 job: 1 passed, 0 failed'
        [ -s a.map ] || fail 'there is no map'
    done
}
