# shellcheck shell=bash disable=SC2154 # checks/commands/firmware.sh gives kit and top
# What a program stands on: the C library's ends, C++, the map of memory, and signatures.

case_assert_and_abort() {
    put t/asserts.c <<<'#include <assert.h>
int main(void) { volatile int two = 2; assert(two == 3); return 0; }'
    put t/aborts.c <<<'#include <stdlib.h>
int main(void) { abort(); }'
    put t/raises.c <<<'#include <signal.h>
int main(void) { raise(SIGTERM); return 0; }'
    put t/catches.c <<<'#include <signal.h>
static int seen;
static void see(int it) { seen = it; }
int main(void) { signal(SIGTERM, see); raise(SIGTERM); return seen; }'
    check 'all are told' 2 '4 jobs: 0 passed, 4 failed'
    shows 'FAIL asserts: exit 134'
    shows 'two == 3'
    shows 'FAIL aborts: exit 134'
    shows 'FAIL raises: exit 143'
    shows 'FAIL catches: exit 15'
}

case_header_in_cplusplus() {
    put a.cpp <<<'#include "rvfleet.h"
int main() { print("x"); fence_i(); finish(CONSOLE_LEFT); }'
    for standard in c++11 c++17 c++20; do
        riscv64-unknown-elf-g++ -march=rv32imc -mabi=ilp32 -std=$standard -Wall -Wextra -Werror -I"$kit" -c a.cpp -o a.o ||
            fail "rvfleet.h is not $standard"
        echo "rvfleet.h is $standard"
    done
}

# Constructors, virtual functions, new and delete, a static variable of a function, and a source in C beside the test.
case_cplusplus() {
    put t/a.cpp <<<'#include <stdio.h>
extern "C" int square(int);
struct Shape { virtual ~Shape() { puts("gone"); } virtual int area() const = 0; };
struct Square : Shape { int side; explicit Square(int it) : side(it) {} int area() const override { return square(side); } };
static int made;
struct Counted { Counted() { made++; } ~Counted() { puts("ended"); } };
static Counted first, second;
int main() { Shape *volatile it = new Square(4); int area = it->area(); delete it; static Counted third; return area + made; }'
    put t/square.c <<<'int square(int it) { return it * it; }'
    echo 't/square.c -Werror' >t/a.flags
    echo 19 >t/a.exit
    printf 'gone\nended\nended\nended\n' >t/a.out
    check 'C++ with a source in C' 0 '1 job: 1 passed, 0 failed'
}

case_code_is_not_writable() {
    put t/main.c <<<'int main(void) { *(volatile int *)main = 0; return 0; }'
    check 'a store to code' 2 'FAIL main: fault store-access'
    put t/main.keys <<<'region = [{ base = 0x8000_0000, size = 0x10_0000 }]'
    check 'where the keys of a test allow it' 0 '1 job: 1 passed, 0 failed'
    rm t/main.keys
    check 'where all tests have other memory' 0 '1 job: 1 passed, 0 failed' REGION='[{ base = 0x8000_0000, size = 0x10_0000 }]'
}

# Words are pushed one by one: the one that overflows is the first below RAM.
case_a_stack_overflows() {
    put t/deep.S <<<'    .globl main
main: addi sp, sp, -4
    sw zero, 0(sp)
    j main'
    put t/calls.c <<<'volatile int more = 1;
__attribute__((noinline)) int calls(int it) { volatile int room[64]; room[0] = it; return more ? calls(it + 1) + room[0] : 0; }
int main(void) { return calls(0); }'
    check 'a stack overflows' 2 'FAIL deep: fault store-access'
    grep -qE 'FAIL deep: .* value (0x)?8007_?fffc' out || fail "it is not the first word below RAM: $(<out)"
    grep -qE 'FAIL calls: fault store-access .* value (0x)?8007_?f' out || fail "calls do not end there: $(<out)"
    local steps
    steps=$(sed -n 's/^FAIL deep: .* after \([0-9]*\) steps/\1/p' out)
    echo '-Wl,--defsym=__stack_size=0x8000' | tee t/deep.flags >t/calls.flags
    check 'a stack of twice the size' 2 'FAIL deep: fault store-access'
    grep -qE 'FAIL deep: .* value (0x)?8007_?fffc' out || fail "it is not the first word below RAM: $(<out)"
    # 4,096 words more, three steps each.
    [ $(($(sed -n 's/^FAIL deep: .* after \([0-9]*\) steps/\1/p' out) - steps)) = 12288 ] || fail 'the stack has another size'
}

case_another_place() {
    local link='-T region.ld -Wl,--defsym=region_base=0x20000000 -Wl,--defsym=region_size=0x20000'
    mkdir t
    cp "$kit"/tests/printf.{c,out} t/
    check 'for all tests' 0 '1 job: 1 passed, 0 failed' LINK="$link" REGION='[{ base = 0x2000_0000, size = 0x2_0000 }]'
    check 'without its region' 2 'FAIL printf: refused segment-map' LINK="$link"
    put t/printf.keys <<<'region = [{ base = 0x2000_0000, size = 0x2_0000 }]'
    check 'for one test' 0 '1 job: 1 passed, 0 failed' LINK="$link"
}

case_signature_in_sections_of_its_own() {
    put t/a.c <<<'unsigned begin_signature[2] __attribute__((section(".signature.1")));
unsigned end_signature[1] __attribute__((section(".signature.2")));
int main(void) { begin_signature[0] = 5; begin_signature[1] = 6; return 0; }'
    printf '00000005\n00000006\n' >t/a.signature
    check 'nothing refers to its end' 0 '1 job: 1 passed, 0 failed'
    printf '00000005\n00000007\n' >t/a.signature
    check 'and it is compared' 2 'expected: signature'
}
