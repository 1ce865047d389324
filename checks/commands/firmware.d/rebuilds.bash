# shellcheck shell=bash disable=SC2154 # checks/commands/firmware.sh gives kit and top
# What makes an image be built again: whatever went into it, by contents and never by dates. Each case is green first, and then red.

# A green check, a second one that builds nothing, a change that is made by the function `change`, and a red check.
#   stale WHAT [WORD..]    further words of make
stale() {
    local what=$1
    shift
    check "$what: as it was" 0 '1 job: 1 passed, 0 failed' "$@"
    check "$what: nothing changed" 0 '1 job: 1 passed, 0 failed' "$@"
    hides 'CC '
    hides 'LD '
    change
    check "$what: changed" 2 '1 job: 0 passed, 1 failed' "$@"
}

# A test that exits with CODE, which a header has.
exits_by_header() {
    put t/a.c <<<"#include <$1>
int main(void) { return CODE; }"
}

case_stale_system_header() {
    exits_by_header code.h
    put system/code.h <<<'#define CODE 0'
    echo '-isystem system' >t/a.flags
    change() { put system/code.h <<<'#define CODE 1'; }
    stale 'a header under -isystem'
}

# The C library's own headers, in a copy of it, since the installed ones are everyone's.
case_stale_library_header() {
    local installed=/usr/lib/picolibc/riscv64-unknown-elf/include
    cp -rL "$installed" library
    mkdir specs
    sed "s|$installed|$PWD/library|g" "$(riscv64-unknown-elf-gcc -print-file-name=picolibc.specs)" >specs/picolibc.specs
    put t/a.c <<<'#include <stdlib.h>
int main(void) { return EXIT_SUCCESS; }'
    change() { sed -i 's/define EXIT_SUCCESS.*/define EXIT_SUCCESS 1/' library/stdlib.h; }
    stale 'a header of the C library' CFLAGS='-Os -Bspecs/'
}

# A folder of headers with older dates in the place of another.
case_stale_folder() {
    exits_by_header code.h
    put old/code.h <<<'#define CODE 1'
    put new/code.h <<<'#define CODE 0'
    touch -d '2 hours ago' old old/code.h
    echo '-Iheaders' >t/a.flags
    ln -s new headers
    change() { ln -sfn old headers; }
    stale 'a link to an older folder'
    rm headers
    cp -r new headers
    change() { rm -r headers && mv old headers; }
    stale 'an older folder, moved'
}

# A header that appears in a directory that is searched before the one that had it.
case_stale_hidden_header() {
    exits_by_header sub/code.h
    mkdir -p first
    put second/sub/code.h <<<'#define CODE 0'
    echo '-Ifirst -Isecond' >t/a.flags
    change() { put first/sub/code.h <<<'#define CODE 1'; }
    stale 'a header that hides another one'
    rm -r first t/build
    stale 'a folder that was not there'
    put t/a.c <<<'#include "code.h"
int main(void) { return CODE; }'
    put second/code.h <<<'#define CODE 0'
    change() { put t/code.h <<<'#define CODE 1'; }
    stale 'a header beside the test'
}

case_stale_has_include() {
    put t/a.c <<<'#if __has_include("extra.h")
#include "extra.h"
#else
#define CODE 0
#endif
int main(void) { return CODE; }'
    mkdir extra
    echo -Iextra >t/a.flags
    change() { put extra/extra.h <<<'#define CODE 1'; }
    stale 'a file that __has_include finds'
    put t/a.c <<<'#define TEXT(it) #it
#define NAME(it) TEXT(it.h)
#if __has_include(NAME(more))
#include NAME(more)
#else
#define CODE 0
#endif
int main(void) { return CODE; }'
    change() { put extra/more.h <<<'#define CODE 1'; }
    stale 'a file whose name macros put together'
}

# A compiler that adds an option, under the name of the real one.
compiler() {
    put "$1" <<<"#!/bin/sh
exec $(command -v riscv64-unknown-elf-gcc) $2 \"\$@\""
    chmod +x "$1"
}

case_stale_compiler() {
    put t/a.c <<<'#ifndef CODE
#define CODE 0
#endif
int main(void) { return CODE; }'
    change() { compiler bin/riscv64-unknown-elf-gcc -DCODE=1; }
    mkdir bin
    PATH=$PWD/bin:$PATH stale 'another compiler comes first on PATH'
    compiler bin/cross -DCODE=0
    change() { compiler bin/cross -DCODE=1 && touch -d '2 hours ago' bin/cross; }
    stale 'the compiler is updated' CC=bin/cross
}

case_stale_variables() {
    local name
    exits_by_header code.h
    put first/code.h <<<'#define CODE 1'
    put second/code.h <<<'#define CODE 0'
    for name in CPATH C_INCLUDE_PATH; do
        export "$name=second"
        # shellcheck disable=SC2317 # stale calls it
        change() { export "$name=first"; }
        stale "$name"
        unset "$name"
        rm -r t/build
    done
    put t/a.c <<<'int main(void) { return __DATE__[10] != 48; }'
    export SOURCE_DATE_EPOCH=0
    # 1970 ends in 0, 1971 in 1.
    change() { export SOURCE_DATE_EPOCH=40000000; }
    stale SOURCE_DATE_EPOCH
    unset SOURCE_DATE_EPOCH
    # A folder of programs with an assembler that adds a symbol.
    put t/a.S <<<'    .weak CODE
    .globl main
main: li a0, 0
    .ifdef code
    li a0, 1
    .endif
    ret'
    rm t/a.c
    mkdir programs
    change() {
        put programs/as <<<"#!/bin/sh
exec $(command -v riscv64-unknown-elf-as) --defsym code=1 \"\$@\""
        chmod +x programs/as
    }
    COMPILER_PATH=$PWD/programs stale 'an assembler appears under COMPILER_PATH'
}

case_stale_assembler_files() {
    put t/a.S <<<'    .include "outer.inc"'
    put inc/outer.inc <<<'    .macro more name
    .include "\name"
    .endm
    more inner.inc'
    put inc/inner.inc <<<'    .globl main
main: lw a0, code
    ret
    .balign 4
code: .incbin "inc/code.bin"'
    printf '\0\0\0\0' >inc/code.bin
    echo -Iinc >t/a.flags
    change() { printf '\1\0\0\0' >inc/code.bin; }
    stale '.incbin in a nested file'
    printf '\0\0\0\0' >inc/code.bin
    change() { sed -i 's/^main: .*/main: li a0, 1/' inc/inner.inc; }
    stale '.include by a macro'
    echo '-Wa,-Ifirst,-I,inc' >t/a.flags
    mkdir first
    change() {
        sed 's/^main: .*/main: li a0, 2/' inc/inner.inc >inner.inc
        mv inner.inc first/
    }
    sed -i 's/^main: .*/main: li a0, 0/' inc/inner.inc
    stale 'a file that hides another one from the assembler'
    rm t/a.*
    put t/a.c <<<'#define READ(name) asm(".balign 4\n.globl code\ncode: .incbin \"inc/" name ".bin\"");
READ("code")
extern unsigned code;
int main(void) { return code; }'
    change() { printf '\1\0\0\0' >inc/code.bin; }
    stale '.incbin in asm of C'
}

case_stale_options() {
    put t/a.c <<<'int main(void) { return CODE; }'
    echo '@outer' >t/a.flags
    echo '@inner' >outer
    echo -DCODE=0 >inner
    change() { echo -DCODE=1 >inner; }
    stale 'a response file within a response file'
    put code.specs <<<'*cpp:
+ -DCODE=0'
    echo '-specs=code.specs' >t/a.flags
    change() { sed -i s/CODE=0/CODE=1/ code.specs; }
    stale 'a file of specs'
    put t/a.c <<<'extern char code[];
int main(void) { return (int)code; }'
    echo '-Wl,@symbols' >t/a.flags
    echo '--defsym=code=0' >symbols
    change() { echo '--defsym=code=1' >symbols; }
    stale "a response file of the linker's"
}

# Libraries and linker scripts that could be found in the place of those that were.
case_stale_libraries() {
    put t/a.c <<<'int code(void);
int main(void) { return code(); }'
    mkdir first second
    library 0
    mv libcode.a second/
    echo '-Lfirst -Lsecond -lcode' >t/a.flags
    change() { library 1 && mv libcode.a first/; }
    stale 'a library that comes before another one'
    library 0
    rm -r first second
    riscv64-unknown-elf-ar rcT libthin.a code.o
    echo '-L. -lthin' >t/a.flags
    change() { library 1; }
    stale 'a member of a thin archive'
    exits t/a.c 0
    rm t/a.flags
    echo 'ENTRY(main)' >default.ld
    check "a script that is named like the kit's, but not asked for" 0 '1 job: 1 passed, 0 failed'
    rm default.ld
    change() { echo 'ENTRY(main)' >default.ld; }
    stale "a linker script in the place of the kit's" LINK='-T default.ld'
    rm default.ld
    cp "$kit/default.ld" mine.ld
    change() { sed -i 's/0x80080000/0x80000/' mine.ld; }
    stale 'a linker script of LINK' LINK='-T mine.ld'
    cp "$kit/sections.ld" .
    cp "$kit/default.ld" mine.ld
    change() { sed -i 's/^ENTRY.*/ENTRY(main)/' sections.ld; }
    stale 'a file that a linker script includes' LINK='-T mine.ld'
}

# What people who knew nothing of the build thought of.
case_stale_by_fresh_eyes() {
    exits_by_header code.h
    put second/code.h <<<'#define CODE 0'
    mkdir first
    echo '-Isecond -include code.h' >t/a.flags
    change() { put code.h <<<'#define CODE 1
#define code_h'; }
    put t/a.c <<<'int main(void) { return CODE; }'
    stale 'a file of -include appears in the current directory'
    rm code.h t/a.flags
    put sources/zero.c <<<'int main(void) { return 0; }'
    put sources/one.c <<<'int main(void) { return 1; }'
    touch -d '1 hour ago' sources/*
    ln -sf ../sources/zero.c t/a.c
    change() { ln -sfn ../sources/one.c t/a.c; }
    stale 'the test is a link to another file'
    rm t/a.c
    exits t/a.c 0
    mkdir programs
    change() {
        printf '#!/bin/sh\nexit 1\n' >programs/cc1
        chmod +x programs/cc1
    }
    stale 'a compiler proper appears under -B' CFLAGS='-Os -Bprograms/'
    rm programs/cc1
    change() { printf '*cc1:\n+ -Dmain=other\n\n' >programs/specs; }
    stale 'a file named specs appears under -B' CFLAGS='-Os -Bprograms/'
    put t/a.c <<<'int main(void) { return __TIMESTAMP__[0] != 87; }'
    touch -d 2020-01-01 t/a.c
    change() { touch -d 2020-01-02 t/a.c; }
    stale '__TIMESTAMP__ of another day'
    put t/a.c <<<'#include "a.h"
int main(void) { return CODE; }'
    put t/a.h <<<'#define CODE 0'
    change() {
        put other.h <<<'#define CODE 1'
        riscv64-unknown-elf-gcc -march=rv32imc -mabi=ilp32 -Os -g --specs=picolibc.specs -x c-header other.h -o t/a.h.gch
    }
    stale 'a precompiled header appears'
}

# An image with a date in the future, or with other contents.
case_stale_image() {
    exits t/a.c 0
    change() {
        touch -d '1 year' t/build/a.elf
        exits t/a.c 1
    }
    stale 'an image dated in the future'
    exits t/a.c 0
    check 'as it was' 0 '1 job: 1 passed, 0 failed'
    echo more >>t/build/a.elf
    touch -r t/a.c t/build/a.elf
    check 'the image was written over' 0 '1 job: 1 passed, 0 failed'
    shows 'LD a'
}

# The source has its old date and size.
case_stale_date() {
    exits t/a.c 0
    change() {
        cp -p t/a.c before
        exits t/a.c 1
        touch -r before t/a.c
    }
    stale 'a source with the date that it had'
}

# A build that is killed at any time leaves nothing that a later one takes for up to date.
case_killed_builds() {
    local at began seconds
    for at in 1 2 3 4 5 6; do
        put "t/a$at.c" <<<'#include "a.h"
int main(void) { return CODE; }'
    done
    put t/a.h <<<'#define CODE 0'
    began=$EPOCHREALTIME
    check 'not killed' 0 '6 jobs: 6 passed, 0 failed' -j4
    seconds=$(awk -v began="$began" -v now="$EPOCHREALTIME" 'BEGIN { print now - began }')
    for at in 2 3 4 5 6 7 8 9; do
        rm -rf t/build
        put t/a.h <<<'#define CODE 0'
        setsid make -s -j4 -f "$kit/Makefile" RVTEST="$top/rvtest" check TESTS=t >/dev/null 2>&1 &
        sleep "$(awk -v seconds="$seconds" -v at="$at" 'BEGIN { print seconds * at / 10 }')"
        kill -KILL -- "-$!" 2>/dev/null || true
        wait "$!" 2>/dev/null || true
        echo "images: $(find t/build -name '*.elf' | wc -l)"
        put t/a.h <<<'#define CODE 1'
        check "killed after $at tenths" 2 '6 jobs: 0 passed, 6 failed' -j4
    done
}

case_header_names() {
    local name
    # shellcheck disable=SC2016 # they are names
    for name in 'a$b.h' 'a#b.h' 'a b.h' 'a:b.h'; do
        put t/a.c <<<"#include \"$name\"
int main(void) { return CODE; }"
        put "t/$name" <<<'#define CODE 0'
        # shellcheck disable=SC2317 # stale calls it
        change() { put "t/$name" <<<'#define CODE 1'; }
        stale "a header named $name"
    done
}

# A source that tests share is compiled once, if its options are the same.
case_shared_sources() {
    put shared.c <<<'#ifndef CODE
#define CODE 0
#endif
int code(void) { return CODE; }'
    local at
    for at in 1 2 3; do
        put "t/a$at.c" <<<'int code(void);
int main(void) { return code(); }'
        echo "shared.c -Wl,--defsym=number=$at" >"t/a$at.flags"
    done
    check 'three tests, one shared source' 0 '3 jobs: 3 passed, 0 failed'
    [ "$(grep -c '^CC shared.c$' out)" = 1 ] || fail "the shared source is not compiled once: $(<out)"
    [ "$(grep -c '^CC .*picolibc.c$' out)" = 1 ] || fail "picolibc.c is not compiled once: $(<out)"
    echo 'shared.c -DCODE=1' >t/a2.flags
    check 'one with another option' 2 '3 jobs: 2 passed, 1 failed'
    [ "$(grep -c '^CC shared.c$' out)" = 1 ] || fail "it is not compiled for this test alone: $(<out)"
    put shared.c <<<'int code(void) { return 2; }'
    check 'the shared source changed' 2 '3 jobs: 0 passed, 3 failed'
}

# Of three hundred tests without a change none is compiled again; bench/kit says how long that takes.
case_many_tests() {
    local at
    for at in $(seq 300); do
        put "t/a$at.c" <<<"#include <stdio.h>
int main(void) { printf(\"%d\", $at); return 0; }"
    done
    check 'three hundred tests' 0 '300 jobs: 300 passed, 0 failed' -j4
    check 'nothing changed' 0 '300 jobs: 300 passed, 0 failed'
    hides 'CC '
}
