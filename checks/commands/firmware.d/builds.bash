# shellcheck shell=bash disable=SC2154 # checks/commands/firmware.sh gives kit and top
# When images are made, of which sources, and what comes of a test that does not compile.

case_a_header_changes() {
    put t/a.c <<<'#include "a.h"
int main(void) { return CODE; }'
    put t/a.h <<<'#define CODE 0'
    check 'as it was' 0 '1 job: 1 passed, 0 failed'
    check 'nothing changed' 0 '1 job: 1 passed, 0 failed'
    hides 'CC a'
    put t/a.h <<<'#define CODE 1'
    check 'its header changed' 2 'FAIL a: exit 1'
}

case_a_header_is_gone() {
    put t/a.c <<<'#include "a.h"
int main(void) { return CODE; }'
    put t/a.h <<<'#define CODE 0'
    check 'with a header' 0 '1 job: 1 passed, 0 failed'
    rm t/a.h
    exits t/a.c 0
    check 'without it' 0 '1 job: 1 passed, 0 failed'
}

case_a_further_source_changes() {
    put t/a.c <<<'int code(void);
int main(void) { return code(); }'
    put code.c <<<'#include "code.h"
int code(void) { return CODE; }'
    put code.h <<<'#define CODE 0'
    echo code.c >t/a.flags
    check 'as it was' 0 '1 job: 1 passed, 0 failed'
    put code.h <<<'#define CODE 1'
    check "the further source's header changed" 2 'FAIL a: exit 1'
    put code.c <<<'int code(void) { return 2; }'
    check 'the further source changed' 2 'FAIL a: exit 2'
    put other.c <<<'int code(void) { return 0; }'
    echo other.c >t/a.flags
    rm code.c code.h
    check 'another further source' 0 '1 job: 1 passed, 0 failed'
}

case_flags_change() {
    put t/a.c <<<'#ifndef CODE
#define CODE 3
#endif
int main(void) { return CODE; }'
    echo -DCODE=0 >t/a.flags
    check 'as it was' 0 '1 job: 1 passed, 0 failed'
    echo -DCODE=2 >t/a.flags
    check 'flags changed' 2 'FAIL a: exit 2'
    rm t/a.flags
    check 'flags are gone' 2 'FAIL a: exit 3'
    check 'options for all' 2 'FAIL a: exit 4' CFLAGS=-DCODE=4
}

# A header that is put in the place of another, with an older time.
case_a_header_is_replaced() {
    put t/a.c <<<'#include "a.h"
int main(void) { return CODE; }'
    put t/a.h <<<'#define CODE 0'
    put new.h <<<'#define CODE 1'
    touch -d '1 hour ago' new.h
    check 'as it was' 0 '1 job: 1 passed, 0 failed'
    mv new.h t/a.h
    check 'an older header in its place' 2 'FAIL a: exit 1'
    check 'nothing changed' 2 'FAIL a: exit 1'
    hides 'CC a'
}

# Files that options name: a library that the linker looks for, a file of further options, a linker script of its own.
case_files_of_options_change() {
    put t/a.c <<<'int code(void);
int main(void) { return code(); }'
    library 0
    echo '-L. -lcode' >t/a.flags
    check 'with a library' 0 '1 job: 1 passed, 0 failed'
    library 1
    check 'the library changed' 2 'FAIL a: exit 1'
    exits t/a.c CODE
    echo '-DCODE=0' >options
    echo '@options' >t/a.flags
    check 'with a file of options' 0 '1 job: 1 passed, 0 failed'
    echo '-DCODE=2' >options
    check 'the file of options changed' 2 'FAIL a: exit 2'
    put t/a.c <<<'extern char code[];
int main(void) { return (int)code; }'
    echo 'code = 0;' >code.ld
    echo '-Wl,code.ld' >t/a.flags
    check 'with a linker script' 0 '1 job: 1 passed, 0 failed'
    echo 'code = 3;' >code.ld
    check 'the linker script changed' 2 'FAIL a: exit 3'
}

# libcode.a, whose function gives a number.
library() {
    echo "int code(void) { return $1; }" >code.c
    riscv64-unknown-elf-gcc -march=rv32imc -mabi=ilp32 -c code.c
    rm -f libcode.a
    riscv64-unknown-elf-ar rc libcode.a code.o
}

# A source whose time is older than the image's.
case_a_test_is_renamed() {
    exits t/a.c 0
    put t/old.cpp <<<'int main() { return 1; }'
    mv t/old.cpp .
    check 'as C' 0 '1 job: 1 passed, 0 failed'
    rm t/a.c
    mv old.cpp t/a.cpp
    check 'as C++' 2 'FAIL a: exit 1'
}

# What `git bisect run make check` says of a commit whose header is wrong.
case_bisect() {
    git init -q .
    git config user.name kit
    git config user.email kit@example.org
    put .gitignore <<<'build/
out
err'
    put t/a.c <<<'#include "a.h"
int main(void) { return CODE; }'
    local at
    for at in 1 2 3 4 5 6; do
        put t/a.h <<<"#define CODE $((at > 3)) /* $at */"
        git add -A
        git commit -qm "number $at"
    done
    git bisect start HEAD HEAD~5 >/dev/null
    ends 'git bisect' 0 'is the first bad commit' git bisect run make -f "$kit/Makefile" RVTEST="$top/rvtest" check TESTS=t
    shows 'number 4'
}

case_other_sources() {
    put t/plain.cpp <<<'struct Made { int code; Made() : code(4) {} };
static Made made;
int main() { return made.code - 4; }'
    put t/other.cc <<<'int main() { return 0; }'
    put t/assembly.S <<<'#define CODE 0
    .globl main
main: li a0, CODE
    ret'
    exits t/uart/rx.c 0
    check 'each is a job' 0 '4 jobs: 4 passed, 0 failed' RUN=--verbose
    local name
    for name in plain other assembly uart.rx; do
        shows "PASS $name: "
    done
    exits t/uart/rx.c 5
    check 'each is run' 2 'FAIL uart.rx: exit 5'
    ends 'no C library' 2 '4 jobs: 3 passed, 1 failed' made check TESTS=t LIBC=none
}

# The others run, also where the image of the time before is there.
case_one_does_not_compile() {
    exits t/a.c 0
    exits t/b.c 0
    exits t/c.c 0
    check 'as it was' 0 '3 jobs: 3 passed, 0 failed'
    put t/b.c <<<'int main(void) { return nothing; }'
    touch t/a.c t/c.c
    check 'one does not compile' 2 'FAIL b: refused image-unreadable'
    shows "'nothing' undeclared"
    shows '3 jobs: 2 passed, 1 failed'
    touch t/a.c
    check 'eight at a time' 2 'FAIL b: refused image-unreadable' -j8
    shows '3 jobs: 2 passed, 1 failed'
    check 'another is chosen' 2 '1 job: 1 passed, 0 failed' RUN='--only a'
    ends 'the list alone' 2 't/b.c: error: not built' made list TESTS=t
}

case_short_lines() {
    exits t/rx.c 0
    ends 'a line an image' 0 'CC rx' made list TESTS=t
    hides -march=rv32imc
    rm -r t/build
    ends 'whole lines' 0 -march=rv32imc made list TESTS=t V=1
}

case_eight_at_a_time() {
    local at
    for at in 1 2 3 4 5 6 7 8 9; do
        exits "t/uart/a$at.c" 0
    done
    ends 'one at a time' 0 t made list TESTS=t
    cp t/build/t.toml one.toml
    rm -r t/build
    ends 'eight at a time' 0 t made list TESTS=t -j8
    cmp one.toml t/build/t.toml || fail 'the lists differ'
}

case_named_for_its_folder() {
    exits tests/uart/a.c 0
    ends 'a suite' 0 '1 job: 1 passed, 0 failed' made check TESTS=tests/uart/ RUN='--junit junit.xml'
    [ -e tests/uart/build/uart.toml ] || fail 'there is no tests/uart/build/uart.toml'
    grep -q 'classname="uart"' junit.xml || fail "the suite has another name: $(<junit.xml)"
}
