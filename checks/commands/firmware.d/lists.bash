# shellcheck shell=bash
# What mklist makes of files beside tests, and what it refuses.

case_defaults() {
    exits t/a.c 0
    exits t/uart/b.c 3
    exits t/uart/c.c 0
    exits t/spi/d.c 0
    put t/defaults.keys <<<'# for all
budget = 5_000
region = [ # over several lines
    { base = 0x8000_0000, size = 0x10_0000 },
]'
    put t/uart/defaults.keys <<<'expect_exit = 3
budget = 6_000'
    put t/uart/c.keys <<<'expect_end = "budget"'
    echo 4 >t/uart/c.budget
    check 'all are green' 0 '4 jobs: 4 passed, 0 failed'
    cp t/build/*.toml list.toml
    [ "$(grep -c '^region = \[ # over several lines$' list.toml)" = 4 ] || fail "a folder's keys do not hold for all: $(<list.toml)"
    [ "$(grep '^budget' list.toml | paste -sd ' ')" = 'budget = 5_000 budget = 5_000 budget = 6_000 budget = 4' ] ||
        fail "the nearest budget is not taken: $(<list.toml)"
    [ "$(grep -c '^expect_e' list.toml)" = 4 ] || fail "a job has two endings, or none: $(<list.toml)"
    put t/defaults.keys <<<'budget = 4'
    check 'for all but where a nearer one is' 2 '4 jobs: 2 passed, 2 failed'
}

# A test has the same keys whichever folder is TESTS, and however that is spelt; nothing is read above the current directory.
case_defaults_above() {
    exits t/uart/b.c 3
    exits t/uart/rx/c.c 3
    put t/defaults.keys <<<'isa = "rv32i"'
    echo 'expect_exit = 3' >t/uart/defaults.keys
    ln -s t/uart link
    local tests
    for tests in t t/uart t/uart/ ./t/uart/rx "$PWD/t/uart" t/uart/rx/../. link; do
        ends "the keys of t, TESTS=$tests" 2 '0 passed' made check "TESTS=$tests"
        shows 'fault illegal'
    done
    echo 'isa = "rv32imc"' | tee t/uart/rx/defaults.keys >defaults.keys
    ends 'a nearer file' 0 '1 job: 1 passed, 0 failed' made check TESTS=t/uart/rx
    ends 'but not for others' 2 '2 jobs: 1 passed, 1 failed' made check TESTS=t/uart
    rm t/defaults.keys
    echo 'isa = "rv32i"' >defaults.keys
    ends 'a file of the current directory' 2 '2 jobs: 1 passed, 1 failed' made check TESTS=t/uart
    echo 'isa = "rv3"' >defaults.keys
    ends 'one that is wrong' 2 'defaults.keys:1: error: ' made check TESTS=t/uart
    shows '2 jobs: 1 passed, 1 failed'
    mkdir other
    ends 'above the current directory' 0 '2 jobs: 2 passed, 0 failed' made -C other check TESTS=../t/uart
    ends 'above the current directory, which has the tests' 0 '2 jobs: 2 passed, 0 failed' made -C t check TESTS=uart
    ends 'the current directory itself' 0 '2 jobs: 2 passed, 0 failed' made -C t/uart check TESTS=.
}

case_cases() {
    put t/echo.c <<<'#include "rvfleet.h"
int main(void) { int sum = 0; for (unsigned it = CONSOLE; it != SCRIPT_END; it = CONSOLE) { CONSOLE = it; sum++; } return sum; }'
    mkdir t/echo.cases
    printf ab >t/echo.cases/two.in
    cp t/echo.cases/two.in t/echo.cases/two.out
    echo 2 >t/echo.cases/two.exit
    : >t/echo.cases/none.out
    printf a >t/echo.cases/short.in
    echo budget >t/echo.cases/short.end
    echo 5 >t/echo.cases/short.budget
    echo 9999 >t/echo.budget
    check 'a job a case' 0 '3 jobs: 3 passed, 0 failed' RUN=--verbose
    shows 'PASS echo.two: exit 2'
    shows 'PASS echo.none: exit 0'
    shows 'PASS echo.short: budget used up after 5 steps'
    [ "$(grep -c 'build/echo.elf' t/build/*.toml)" = 3 ] || fail 'the cases have not one image'
    [ "$(grep -c '^budget = 9999' t/build/*.toml)" = 2 ] || fail "the test's budget does not hold for its cases"
    echo 1 >t/echo.cases/none.exit
    check 'one is turned' 2 'FAIL echo.none: exit 0'
    rm t/echo.cases/*
    check 'no case' 2 't/echo.cases: error: no cases found'
    : >t/echo.cases/a.in
    : >t/echo.in
    check 'a script beside cases' 2 't/echo.in: error: cannot be used with t/echo.cases'
}

case_passed_over() {
    exits t/a.c 0
    exits t/helper.c 0
    echo t/helper.c -Dmain=other >t/b.flags
    put t/b.c <<<'#undef main
int main(void) { return 0; }'
    echo x | tee t/a.h t/a.ld t/README.md t/Makefile >t/notes.txt
    echo ret >t/late.s
    exits t/build/old.c 1
    exits t/.hidden/old.c 1
    check 'two are tests' 0 '2 jobs: 2 passed, 0 failed'
    shows 't/notes.txt: note: ignored: '
    shows 't/late.s: warning: ignored: '
    [ "$(grep -c 'ignored' err)" = 2 ] || fail "more is ignored: $(<err)"
}

case_names_with_a_blank() {
    exits 't/my test.c' 0
    check 'a blank' 2 't/my test.c: error: invalid job name "my test": expected 1 to 64 ASCII letters'
    rm t/*.c
    exits 't/my folder/a.c' 0
    check 'a blank in a folder' 2 't/my folder/a.c: error: invalid job name "my folder.a"'
}

# Makes a folder with one test and the file given, and expects mklist to name the file and to write nothing.
refused() {
    rm -rf bad
    mkdir bad
    : >bad/good.c
    printf '%s' "$2" | put "bad/$1"
    ends "refused: $1" 2 "bad/$1: $3" mklist bad
    [ ! -s out ] || fail "a list is written: $(<out)"
}

# The same of a file that is wrong for its test alone: the list has a job of that test, which fails.
broken() {
    rm -rf bad
    mkdir bad
    : >bad/good.c
    printf '%s' "$2" | put "bad/$1"
    ends "broken: $1" 1 "bad/$1:${3/#error/ error}" mklist bad
    grep -q '^image = "bad/build/good.elf.refused"$' out || fail "the test has another job: $(<out)"
}

case_refused_files() {
    refused 'two words.c' '' 'error: invalid job name "two words"'
    broken good.exit five '1: error: expected an integer from -2147483648 to 4294967295, found "five"'
    broken good.exit '' '1: error: expected one word, found 0'
    broken good.end spin '1: error: unknown end "spin": expected budget, fetch-access'
    broken good.budget 0 '1: error: expected an integer from 1 to 1000000000, found "0"'
    refused god.out x 'error: belongs to a missing test: expected bad/god.c, .cpp, .cc or .S'
    rm bad/god.out
    echo 1 >bad/good.exit
    echo budget >bad/good.end
    ends 'refused: two ways to end' 1 'bad/good.end: error: cannot be used with bad/good.exit' mklist bad
    head -c 65537 /dev/zero >bad/good.in
    rm bad/good.end
    ends 'refused: a script that is too long' 1 'good.in: error: too long: expected at most 65536 bytes, found 65537' mklist bad
    ends 'refused: no folder' 2 'no/where: error: No such file or directory' mklist no/where
    ends 'refused: no words' 2 'mklist: error: invalid arguments: none' mklist
    ends 'refused: TESTS is wanting' 2 'TESTS must be one folder' made check
}

case_refused_keys_and_folders() {
    broken good.keys 'isa = ' '1: error: invalid TOML: invalid value'
    broken good.keys '[region]' '1: error: "[region]" begins a table: expected lines "key = value"'
    broken good.keys 'name = "x"' '1: error: "name" cannot be set: it is the name of the test'
    broken defaults.keys 'a = 1 a' '1:7: error: invalid TOML: expected newline or end of document'
    refused defaults.c '' 'error: invalid test name "defaults"'
    refused good.cpp '' 'error: duplicate test "good": bad/good.c has the same name'
    broken good.flags '"' '1: error: no closing quotation'
    broken good.flags '-O2 # faster' '1: error: "#" is not expanded or run here: expected options and files, without comments'
    broken good.flags '-O2; ls' '1: error: ";"'
    refused good.flags bad/good.c 'error: belongs to bad/good.c, which is not a test: a .flags file names it'
    broken good.cases/a.flags '' 'error: all cases share one image'
    refused uart/good.out x 'error: belongs to a missing test'
    rm -rf bad
    exits bad/good.c 0
    : | put bad/god.cases/a.in
    ends 'refused: cases of no test' 2 'bad/god.cases: error: belongs to a missing test' mklist bad
    rm -rf bad
    exits bad/uart.rx.c 0
    exits bad/uart/rx.c 0
    ends 'refused: two jobs of a name' 2 'bad/uart/rx.c: error: duplicate job name "uart.rx": bad/uart.rx.c has the same' mklist bad
    ends 'refused: a region' 2 '--region:1: error: invalid TOML' mklist bad --region '[{'
    mkdir empty
    ends 'refused: no test' 2 'empty: error: no tests found' mklist empty
}
