# shellcheck shell=bash disable=SC2154 # checks/commands/firmware.sh gives kit and top
# Which tests are built and run, what is ignored, which fail alone, and what names and options mean to the shell.

case_one_test_alone() {
    put t/broken.c <<<'int main(void) { return nothing; }'
    exits t/ring.c 0
    exits t/uart/rx.c 3
    check 'all' 2 '3 jobs: 1 passed, 2 failed'
    rm -r t/build
    check 'one' 0 '1 job: 1 passed, 0 failed' ONLY=ring
    shows 'CC ring'
    hides 'CC broken'
    hides 'CC uart.rx'
    check 'another one' 2 'FAIL uart.rx: exit 3' ONLY=uart.rx
    hides 'broken'
    check 'two' 2 '2 jobs: 1 passed, 1 failed' 'ONLY=ring uart.rx'
    check 'two ways of choosing' 2 'ONLY cannot be combined with --only' ONLY=ring RUN='--only uart.rx'
    check 'an unknown one' 2 'error: no test "rnig"' ONLY=rnig
    shows 'help: did you mean "ring"?'
    ends 'to be debugged' 0 'rvtest gdb' made debug TESTS=t TEST=ring GDB="true"
    hides 'CC broken'
    [ "$(find t/build/debug -name '*.elf')" = t/build/debug/ring.elf ] || fail 'another test is built to be debugged'
    put t/ring.cases/one.out </dev/null
    put t/ring.cases/two.exit <<<0
    check 'all of its cases' 0 '2 jobs: 2 passed, 0 failed' ONLY=ring
    check 'one of its cases' 0 '1 job: 1 passed, 0 failed' ONLY=ring.two
}

case_strict() {
    exits t/a.c 0
    echo x >t/notes.txt
    check 'what is not like a test' 0 '1 job: 1 passed, 0 failed' STRICT=1
    shows 't/notes.txt: note: ignored'
    echo x >t/a.OUT
    check 'not strict' 0 't/a.OUT: warning: ignored'
    check 'strict' 2 't/a.OUT: error: ignored' STRICT=1
    shows '1 job: 1 passed, 0 failed'
    CI=true check 'strict in CI' 2 't/a.OUT: error: ignored'
    CI=true check 'not strict in CI' 0 't/a.OUT: warning: ignored' STRICT=0
    rm t/a.OUT
    ln -s missing t/defaults.keys
    check 'keys that are a dangling link' 2 't/defaults.keys: error: a dangling link'
    rm t/defaults.keys
    exits t/README.c 5
    check 'README.c is a test' 2 'FAIL README: exit 5'
}

# A link that has no target says nothing, though somebody made it to say something: its test fails, also where nothing is strict.
case_dangling_links() {
    local kind
    exits t/b.c 0
    for kind in in out exit end budget signature keys flags; do
        exits t/a.c 0
        ln -s "../gold/a.$kind" "t/a.$kind"
        check "a dangling .$kind" 2 "t/a.$kind: error: a dangling link: there is no file \"../gold/a.$kind\""
        shows '2 jobs: 1 passed, 1 failed'
        ends "a dangling .$kind, accepted" 2 "t/a.$kind: error: a dangling link" made accept TESTS=t
        rm "t/a.$kind"
    done
    put t/a.cases/one.exit <<<0
    ln -s ../../gold/one.out t/a.cases/one.out
    check 'a dangling file of a case' 2 't/a.cases/one.out: error: a dangling link'
    ends 'a dangling file of a case, accepted' 2 't/a.cases/one.out: error: a dangling link' made accept TESTS=t
    mkdir gold
    : >gold/one.out
    check 'and it is there' 0 '2 jobs: 2 passed, 0 failed'
    ends 'and it is accepted' 0 '0 files written' made accept TESTS=t
}

# A link to a helper is a test, and so is a helper's target: only the file that the options name is none.
case_linked_helpers() {
    put src/crc.c <<<'int crc(void) { return 0; }
__attribute__((weak)) int main(void) { return 5; }'
    mkdir -p t
    ln -s ../src/crc.c t/crc.c
    put t/b.c <<<'int crc(void);
int main(void) { return crc(); }'
    check 'a test that is a link' 2 'FAIL crc: exit 5'
    echo src/crc.c >t/b.flags
    check 'its target is a helper' 2 'FAIL crc: exit 5' STRICT=1
    shows '2 jobs: 1 passed, 1 failed'
    echo t/crc.c >t/b.flags
    check 'it is a helper itself' 0 '1 job: 1 passed, 0 failed' STRICT=1
    ln -s t tests
    echo "$PWD/tests/../t/crc.c" >t/b.flags
    check 'and by another path' 0 '1 job: 1 passed, 0 failed' STRICT=1
    ln -s ../t/crc.c src/link.c
    echo src/link.c >t/b.flags
    check 'a link to it is a helper' 2 'FAIL crc: exit 5' STRICT=1
}

# Faults that rvtest finds, in the files that they come from.
case_broken_keys() {
    exits t/a.c 0
    exits t/b.c 0
    put t/b.keys <<<'# what may be misaligned
misaligned = "allow"
misalinged = "allow"'
    check 'an unknown key' 2 't/b.keys:3: error: unknown key "misalinged"'
    shows '2 jobs: 1 passed, 1 failed'
    put t/b.keys <<<'isa = "rv64i"'
    check 'a wrong value' 2 't/b.keys:1: error: '
    shows '2 jobs: 1 passed, 1 failed'
    put t/b.keys <<<'isa = '
    check 'not TOML' 2 't/b.keys:1:7: error: invalid TOML'
    shows '2 jobs: 1 passed, 1 failed'
    rm t/b.keys
    exits t/uart/c.c 0
    exits t/uart/d.c 0
    put t/uart/defaults.keys <<<'expct_exit = 0'
    check 'a key of a folder' 2 't/uart/defaults.keys:1: error: unknown key "expct_exit"'
    shows '4 jobs: 2 passed, 2 failed'
    [ "$(grep -c 'expct_exit' err)" = 1 ] || fail "it is told more than once: $(<err)"
    # shellcheck disable=SC2016 # it is not to be expanded
    echo '-DX=$(touch injected)' >t/uart/c.flags
    rm t/uart/defaults.keys
    check 'wrong flags' 2 't/uart/c.flags:1: error: "$" is not expanded'
    shows '4 jobs: 3 passed, 1 failed'
    [ ! -e injected ] || fail 'a command of a .flags file was run'
}

case_signed_exit() {
    exits t/a.c -1
    echo -1 >t/a.exit
    check 'a signed exit code' 0 '1 job: 1 passed, 0 failed'
    echo 4294967295 >t/a.exit
    check 'an unsigned one' 0 '1 job: 1 passed, 0 failed'
    echo -2147483649 >t/a.exit
    check 'one that is too small' 2 't/a.exit:1: error: expected an integer from -2147483648 to 4294967295, found "-2147483649"'
}

# Names mean nothing to make or to the shell.
case_names_are_words() {
    local name
    # shellcheck disable=SC2016 # they are names
    for name in 't;touch${IFS}injected' 't$(touch${IFS}injected)' 't`touch${IFS}injected`' "t'q" 't$(shell touch injected)x'; do
        exits "$name/a.c" 0
        case $name in
            *' '*)
                ends "TESTS=$name" 2 'TESTS must be one directory without spaces' made check "TESTS=$name"
                ;;
            *)
                ends "TESTS=$name" 0 '1 job: 1 passed, 0 failed' made check "TESTS=$name"
                ends "TESTS=$name, listed" 0 'LIST ' made list "TESTS=$name"
                ends "TESTS=$name, cleaned" 0 '' made clean "TESTS=$name"
                [ ! -e "$name/build" ] || fail "TESTS=$name: it is not cleaned"
                ;;
        esac
    done
    exits t/a.c 0
    # shellcheck disable=SC2016
    check 'ONLY' 2 'error: no test' 'ONLY=a;touch${IFS}injected'
    # shellcheck disable=SC2016
    check 'ARCH' 2 'ARCH:1: error: "$" is not expanded' 'ARCH=$$(touch injected)'
    [ ! -e injected ] || fail 'a name was run as a command'
}

case_header_in_assembler() {
    put t/a.S <<<'#include "rvfleet.h"
    .globl main
main:
    li t0, CONSOLE
    li t1, 0x41
    sw t1, 0(t0)
    fence_i
    fence.i
    lw t1, CONSOLE_LEFT - CONSOLE(t0)
    finish 7'
    echo 7 >t/a.exit
    printf A >t/a.out
    put t/plain.S <<<'    .globl main
main:
    fence.i
    li a0, 0
    ret'
    check 'rvfleet.h, and FENCE.I without a directive' 0 '2 jobs: 2 passed, 0 failed'
    echo '-march=rv32i -mabi=ilp32' | tee t/a.flags >t/plain.flags
    check 'for another core' 0 '2 jobs: 2 passed, 0 failed'
    check 'no C library' 0 '2 jobs: 2 passed, 0 failed' LIBC=none
}

# Options that would hide from the build what was read.
case_refused_options() {
    local option
    for option in -MMD '-MF x' '-Wp,-MD,x' '-o x' -c -E '-Wl,--dependency-file=x' -fmodules-ts -fprofile-use; do
        exits t/a.c 0
        printf '%s\n' "$option" >t/a.flags
        check "$option" 2 "t/a.flags: error: \"${option%% *}\" cannot be used"
    done
    rm t/a.flags
    check 'modules for all tests' 2 'CFLAGS: error: "-fmodules-ts" cannot be used' CFLAGS='-std=c++20 -fmodules-ts'
}

# The same where only the compiler's own command shows them.
case_refused_options_of_the_compiler() {
    local option
    exits t/a.c 0
    for option in -Wp,-fbranch-probabilities -Wp,-fmodules-ts -dM -Wp,-dM -dD -P -Wp,-P -fdirectives-only \
        -Wp,-fdirectives-only -save-temps; do
        printf '%s\n' "$option" >t/a.flags
        check "$option" 2 "error: \"${option#-Wp,}\" cannot be used"
    done
    echo '-dM' >t/a.rsp
    echo '@t/a.rsp' >t/a.flags
    check 'a response file' 2 'error: "-dM" cannot be used'
    rm t/a.flags
    check 'options for all tests' 2 'error: "-dM" cannot be used' CC='riscv64-unknown-elf-gcc -dM'
    check 'options that dump' 0 '1 passed' CFLAGS='-Os -dp -dumpbase x'
    put board.specs <<<'*cpp_unique_options:
+ %{!E:-Ihere}
'
    check 'specs that differ for -E' 2 "the compiler's specs choose other folders or macros for -E" CFLAGS='-Os -specs=board.specs'
    put board.specs <<<'*cpp_unique_options:
+ -Ihere
'
    check 'specs that do not' 0 '1 passed' CFLAGS='-Os -g -specs=board.specs'
}
