# shellcheck shell=bash disable=SC2154 # checks/commands/firmware.sh gives kit and top
# The committed images, the kit's examples and its page, and each example's expectations turned.

case_committed_images() {
    cp -r "$top/examples" .
    cp -r "$kit" firmware
    examples/firmware/build
    for image in upper checksum; do
        cmp "examples/firmware/$image.elf" "$top/examples/firmware/$image.elf" || fail "$image.elf is not what is committed"
        echo "$image.elf: rebuilt byte for byte"
    done
}

# A test has one job, or as many as it has cases.
case_examples() {
    local jobs
    cd "$kit" || return
    made list TESTS=tests >out 2>err || fail "the examples do not build: $(<err)"
    jobs=$(mklist tests | grep -c '^name = ')
    ends 'the examples' 0 "$jobs jobs: $jobs passed, 0 failed" made check TESTS=tests
}

# The paths, without their endings, of the tests that have no cases, and of the cases of the others.
stems() {
    find tests -name '*.cases' -prune -o \( -name '*.c' -o -name '*.cpp' -o -name '*.cc' -o -name '*.S' \) -print | sed 's/\.[^.]*$//' |
        while read -r stem; do
            [ -d "$stem.cases" ] || echo "$stem"
        done
    find tests -path '*.cases/*' -type f | sed 's/\.[^.]*$//' | sort -u
}

# Turns one expectation in a copy of the tests, and runs its job alone. A first byte becomes another.
turned() {
    local stem=$1 kind=$2 name file
    name=$(sed 's|^tests/||; s|\.cases/|.|; s|/|.|g' <<<"$stem")
    file=turned/${stem#tests/}.$kind
    rm -rf turned
    cp -r tests turned
    case $kind in
        exit) echo $(($(cat "$stem.exit" 2>/dev/null || echo 0) + 1)) >"$file" ;;
        end) echo breakpoint >"$file" ;;
        keys) rm "$file" ;;
        *) { printf '~'; tail -c +2 "$stem.$kind"; } >"$file" ;;
    esac
    mklist turned --elves images >list.toml
    ends "$name, its $kind turned" 1 "FAIL $name: " "$top/rvtest" run list.toml --only "$name"
}

case_examples_turned() {
    local stem kind
    cp -r "$kit/tests" .
    made list TESTS=tests >out 2>err || fail "the examples do not build: $(tail err)"
    mv tests/build images
    for stem in $(stems); do
        [ -e "$stem.end" ] || turned "$stem" exit
        for kind in end out signature; do
            [ ! -e "$stem.$kind" ] || turned "$stem" "$kind"
        done
    done
    for stem in misaligned patch; do
        turned "tests/$stem" keys
    done
}

# Built for more than RV32I, the test of that core must fail by an instruction that it has not.
case_example_of_another_core() {
    mkdir t
    cp "$kit"/tests/rv32i.{c,exit,keys} t/
    check 'rv32i, built for rv32imc' 2 'FAIL rv32i: fault'
}

case_architecture_tests() {
    local file
    cp -r "$kit/arch-test/tests" .
    ends 'architecture tests' 0 '2 jobs: 2 passed, 0 failed' made arch-check TESTS=tests
    mkdir references
    for file in tests/*.reference_output; do
        { printf '1'; tail -c +2 "$file"; } >"references/$(basename "$file")"
    done
    ends 'their references turned' 2 '2 jobs: 0 passed, 2 failed' made arch-check TESTS=tests REFERENCES=references
    echo 'no instruction' >>tests/add_small.S
    ends 'one does not assemble' 2 'FAIL add_small: refused image-unreadable' made arch-check TESTS=tests
    shows '2 jobs: 1 passed, 1 failed'
}

case_no_c_library() {
    mkdir t
    cp -r "$kit"/tests/{states,crash,fence_i,rom_data,rv32i}.* t/
    check 'no C library' 0 ' passed, 0 failed' LIBC=none
    [ "$(grep -c '^image = ' t/build/t.toml)" -ge 5 ] || fail "tests are missing: $(<t/build/t.toml)"
}

# The first three commands of the page, but for the installation, for who has a clone alone; then those of a test of one's own. Each
# block goes on where the one before it stood.
case_page() {
    local at
    mkdir clone home
    cp -r "$kit" clone/firmware
    ln -s "$top/rvtest" "$top/launch.bash" clone/
    awk '/^    / { if (!within) { block++; within = 1 } print substr($0, 5) >("block" block); next } { within = 0 }' "$kit/README.md"
    sed -i '/^sudo apt-get/d' block1
    [ "$(wc -l <block1)" = 2 ] || fail "the page does not begin with three commands: $(<block1)"
    echo "$PWD/clone" >where
    for at in 1 2 3; do
        HOME=$PWD/home bash -c "cd '$(<where)' && $(<"block$at")
            status=\$?; pwd >'$PWD/where'; exit \$status" >"out$at" 2>&1 || echo "status $?" >>"out$at"
    done
    cat out1 out2 out3
    said 1 ' passed, 0 failed' 0
    said 2 'expected: exit 0' 1
    said 3 '1 passed, 0 failed' 0
}

# Whether a block of the page said a text, and whether its last line has a status that is not 0.
said() {
    grep -qF "$2" "out$1" || fail "block $1 of the page does not say '$2'"
    [ "$(grep -c '^status' "out$1")" = "$3" ] || fail "block $1 of the page has another status"
}
