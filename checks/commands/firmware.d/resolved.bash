# shellcheck shell=bash disable=SC2154,SC2317 # checks/commands/firmware.sh gives kit and top; stale calls each `change`
# What only the compiler itself can resolve: which programs it runs, and which headers it finds, wherever it looks for them.

# A test that exits with 1 once the compiler defines CODE.
exits_by_compiler() {
    put t/a.c <<<'#ifndef CODE
#define CODE 0
#endif
int main(void) { return CODE; }'
    mkdir -p bin
    change() { compiler bin/riscv64-unknown-elf-gcc -DCODE=1; }
}

case_stale_compiler_behind_a_word() {
    exits_by_compiler
    PATH=$PWD/bin:$PATH stale 'another compiler comes first on PATH' CC='env LC_ALL=C riscv64-unknown-elf-gcc'
}

case_stale_compiler_behind_a_script() {
    exits_by_compiler
    put tools/cc <<<'#!/bin/sh
exec riscv64-unknown-elf-gcc "$@"'
    chmod +x tools/cc
    PATH=$PWD/bin:$PATH stale 'another compiler comes first on PATH' CC=tools/cc
}

case_stale_prefix_of_programs() {
    put t/a.S <<<'    .globl main
main:
    .ifdef code
    li a0, 1
    .else
    li a0, 0
    .endif
    ret'
    mkdir tools
    change() {
        put tools/rv-as <<<"#!/bin/sh
exec $(command -v riscv64-unknown-elf-as) --defsym code=1 \"\$@\""
        chmod +x tools/rv-as
    }
    stale 'an assembler appears by a prefix of -B' CFLAGS='-Os -g -Btools/rv-'
}

# A test that includes a header, if there is one, whose name macros put together.
#   exits_by_computed NAME    as the macro TEXT or ANGLED is given it
exits_by_computed() {
    put t/a.c <<<"#define TEXT_OF(it) #it
#define TEXT(it) TEXT_OF(it)
#define ANGLED(it) <it>
#define NAME $1
#if __has_include(NAME)
#include NAME
#else
#define CODE 0
#endif
int main(void) { return CODE; }"
}

case_stale_computed_folder() {
    exits_by_computed 'TEXT(TOP/boards/BOARD.h)'
    mkdir boards
    echo '-DTOP=.. -DBOARD=lm3' >t/a.flags
    change() { put boards/lm3.h <<<'#define CODE 1'; }
    stale 'a header in a folder that an option names'
}

case_stale_computed_dangling_link() {
    exits_by_computed 'TEXT(BOARD.h)'
    mkdir folder
    ln -s ../made/lm3.h folder/lm3.h
    echo '-DBOARD=lm3 -Ifolder' >t/a.flags
    change() { put made/lm3.h <<<'#define CODE 1'; }
    stale 'the target of a dangling link appears'
}

# Whether the system's folders may be written to, in which a file of the case's own appears.
#   own_of_system FOLDER WHAT
own_of_system() {
    [ -w "$1" ] || {
        echo "$2: passed over, since $1 is not writable"
        return 1
    }
}

case_stale_computed_folder_of_the_system() {
    local sdk=/usr/share
    own_of_system "$sdk" 'a header of an SDK in /usr/share' || return 0
    sdk=$(mktemp -d "$sdk/rvfleet-case-XXXXXX")
    own=$sdk
    trap 'rm -rf "$own"' EXIT
    mkdir "$sdk/boards"
    exits_by_computed 'TEXT(boards/BOARD.h)'
    echo "-DBOARD=lm3 -I$sdk" >t/a.flags
    change() { put "$own/boards/lm3.h" <<<'#define CODE 1'; }
    stale 'a header of an SDK in /usr/share'
}

case_stale_computed_header_of_the_library() {
    local folder=/usr/lib/picolibc/riscv64-unknown-elf/include/machine
    own_of_system "$folder" 'a header of the C library' || return 0
    own=$folder/rvfleet_case_$$.h
    trap 'rm -f "$own"' EXIT
    exits_by_computed "ANGLED(machine/BOARD.h)"
    echo "-DBOARD=rvfleet_case_$$" >t/a.flags
    change() { put "$own" <<<'#define CODE 1'; }
    stale 'a header appears in the folder of the C library'
}

# An image of an SDK below a writable overlay, and another one in its place whose files have the same inodes, sizes and dates.
case_stale_images_below_an_overlay() {
    local what
    mkdir low sdk
    library 0
    image 0 || return 0
    library 1
    image 1 || return 0
    mounted=$PWD
    trap 'umount "$mounted/sdk" "$mounted/low"' EXIT
    for what in 'a header' 'a library'; do
        if ! overlaid 0; then
            echo 'images: passed over, since they cannot be mounted'
            return
        fi
        change() { umount sdk low && overlaid 1; }
        case $what in
            'a header')
                exits_by_header code.h
                echo '-isystem sdk' >t/a.flags
                ;;
            *)
                put t/a.c <<<'int code(void);
int main(void) { return code(); }'
                echo '-Lsdk -lcode' >t/a.flags
                ;;
        esac
        stale "$what of another image"
        umount sdk low
    done
    trap - EXIT
}

# Makes NUMBER.img with a header and the library that is here.
#   image NUMBER
image() {
    local file date
    put "$1/code.h" <<<"#define CODE $1"
    mv libcode.a "$1/"
    truncate -s 4M "$1.img"
    if ! mke2fs -q -t ext4 -O ^has_journal -d "$1" "$1.img"; then
        echo 'images: passed over, since they cannot be made'
        return 1
    fi
    for file in code.h libcode.a; do
        for date in atime ctime mtime crtime; do
            debugfs -w -R "sif /$file $date 20200101000000" "$1.img" 2>/dev/null
            debugfs -w -R "sif /$file ${date}_extra 0" "$1.img" 2>/dev/null
        done
    done
}

# Mounts NUMBER.img at low, and an overlay of it at sdk.
overlaid() {
    rm -rf up work
    mkdir up work
    mount -o loop,ro "$1.img" low && mount -t overlay overlay -o lowerdir=low,upperdir=up,workdir=work sdk
}

# A comment that a warning depends on, which the preprocessor drops, in a source and in a header.
case_stale_comments() {
    local file
    for file in t/a.c t/a.h; do
        put t/a.c <<<'static int code(int it)
{
#include "a.h"
}
int main(void) { return code(0) - 1; }'
        put t/a.h <<<'    switch (it) {
    case 0: it++; /* fall through */
    default: return it;
    }'
        [ "$file" = t/a.h ] || {
            sed -i -e '/#include/{r t/a.h' -e 'd}' t/a.c
            rm t/a.h
        }
        change() { sed -i 's| /.*through.*/||' "$file"; }
        stale "a comment in $file" CFLAGS='-Os -g -Wextra -Werror'
    done
}

# Words of make that say nothing of an output.
case_words_of_make() {
    local words
    exits t/a.c 0
    exits t/b.c 0
    check 'as it was' 0 '2 jobs: 2 passed, 0 failed'
    for words in -j1 -j2 -j4 -s V=1 ONLY=b 'ONLY=a -j3'; do
        # shellcheck disable=SC2086 # they are words
        check "and with $words" 0 ' passed, 0 failed' $words
        hides 'CC '
        hides 'LD '
        hides ' -c '
    done
}

# A compiler whose preprocessor fails: what it compiles is made each time, since nothing says what it is made of.
case_preprocessor_fails() {
    put cross <<<'#!/bin/sh
case " $* " in *" -E "*) [ ! -e fails ] || exit 1 ;; esac
exec riscv64-unknown-elf-gcc "$@"'
    chmod +x cross
    exits_by_header code.h
    put t/code.h <<<'#define CODE 0'
    echo -It >t/a.flags
    : >fails
    check 'as it was' 0 '1 job: 1 passed, 0 failed' CC=./cross
    check 'nothing changed' 0 '1 job: 1 passed, 0 failed' CC=./cross
    shows 'CC a'
    rm fails
    check 'it works again' 0 '1 job: 1 passed, 0 failed' CC=./cross
    check 'nothing changed' 0 '1 job: 1 passed, 0 failed' CC=./cross
    hides 'CC '
    : >fails
    put t/code.h <<<'#define CODE 1'
    check 'it fails, and a header changed' 2 'FAIL a: exit 1' CC=./cross
}

# A source that vanishes, and a header that changes for good or for a moment, while they are compiled.
case_changes_while_compiling() {
    # shellcheck disable=SC2016 # words of the script
    put cross <<<'#!/bin/sh
at() { case " $1 " in *" -c t/a.c "*) [ ! -e "$2" ] || . "./$2" ;; esac; }
at "$*" before
riscv64-unknown-elf-gcc "$@"
status=$?
at "$*" after
exit $status'
    chmod +x cross
    # Words of the script, which are run once.
    once() { echo "$2; rm $1" >"$1"; }
    exits_by_header code.h
    exits t/b.c 0
    put inc/code.h <<<'#define CODE 0'
    once before 'mv t/a.c .'
    check 'the source vanishes' 0 't/a.c: No such file or directory' CC=./cross CFLAGS=-Iinc
    shows '1 job: 1 passed, 0 failed'
    hides Traceback
    mv a.c t/
    once before 'echo "#define CODE 1" >inc/code.h'
    check 'a header changes before it is read' 2 'FAIL a: exit 1' CC=./cross CFLAGS=-Iinc
    check 'and is known' 2 'FAIL a: exit 1' CC=./cross CFLAGS=-Iinc
    put inc/code.h <<<'#define CODE 0'
    cp -p inc/code.h saved.h
    once before 'echo "#define CODE 1" >inc/code.h'
    once after 'cp -p saved.h inc/code.h'
    check 'a header changes for a moment' 0 '2 jobs: 2 passed, 0 failed' CC=./cross CFLAGS=-Iinc
    if [ -e before ] || [ -e after ]; then fail 'it did not change'; fi
}

# What is wrong with the compiler is told once, however many tests there are.
case_wrong_compilers() {
    exits t/a.c 0
    exits t/b.c 0
    put clang <<<'#!/bin/sh
echo "clang version 14.0.6" >&2'
    chmod +x clang
    check 'another compiler than GCC' 2 'build: error: CC="./clang" is not GCC, which this kit needs' CC=./clang
    hides 'CC a'
    [ "$(grep -c 'error: ' err)" = 1 ] || fail "more is told: $(<err)"
    check 'specs that are missing' 2 "cannot read spec file 'gone.specs'" CFLAGS='-Os -specs=gone.specs'
    [ "$(grep -c 'gone.specs' err)" = 1 ] || fail "it is told more than once: $(<err)"
    check 'a program that is no compiler' 2 'false: error: ended with status 1' CC=false
}
