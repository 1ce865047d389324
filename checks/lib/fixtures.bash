# shellcheck shell=bash
# What the checks share, for a script at the top of the repository to source. It builds the programs where there is no
# build yet, makes a folder of its own, which goes away at the end, and puts there the programs, the shim that refuses
# growths, images, a list of jobs over them, and the right text of each run.

# Says what was wrong, and ends the check.
fail() {
    printf '%s: %s\n' "$(basename "$0")" "$*" >&2
    exit 1
}

./rvfleet --help >/dev/null || fail 'rvfleet was not built'
./rvtest --version >/dev/null || fail 'rvtest was not built'
work=$(mktemp -d)
trap 'rm -rf "$work"' EXIT
# shellcheck source=launch.bash
source ./launch.bash
# shellcheck source=checks/lib/shims.bash
source checks/lib/shims.bash
cp "$(program rvfleet)" "$(program rvtest)" "$work"
shim=$work/refuse_growth.so
take_shim refuse_growth "$shim" || fail 'there is no shim of checks/lib/refuse_growth.c: it was not compiled, and programs/ has none of this source'

# The maker of ELF files, which says what its words are.
images=$PWD/checks/lib/images.py
image() {
    python3 "$images" "$@"
}

# Sets x10 to 5 and x17 to 93, then ECALL; the same as an image; one that ends at EBREAK, one that is cut off, and one with symbols, whose
# code stores two quotients between begin_signature and end_signature.
image --flat '00500513 X' >"$work/first.bin"
image one >"$work/a.elf"
image 9002 >"$work/f.elf"
image 'one 51' >"$work/cut.elf"
image sign >"$work/s.elf"

cat >"$work/list.toml" <<'END'
[[job]]
name = "pass"
image = "a.elf"
budget = 3
expect_exit = 5

[[job]]
name = "fault"
image = "f.elf"
budget = 10

[[job]]
name = "budget"
image = "a.elf"
budget = 2

[[job]]
name = "short"
image = "cut.elf"
budget = 10

[[job]]
name = "sign"
image = "s.elf"
budget = 100
signature = ["begin_signature", "end_signature"]
END

# A list whose one number is written with `_`.
cat >"$work/underscored.toml" <<'END'
[[job]]
name = "underscored"
image = "a.elf"
budget = 1_0
END

# A list with three faults, and what is said of them.
cat >"$work/faulty.toml" <<'END'
[[job]]
name = "none"
image = "a.elf"
budget = 0

[[job]]
name = "misspelt"
image = "a.elf"
Budget = 3
END
{
    echo 'faulty.toml:4:1: error: job 1 "none": budget = 0: expected an integer from 1 to 1000000000'
    echo 'faulty.toml:6:1: error: job 2 "misspelt": missing key "budget": expected an integer from 1 to 1000000000'
    echo 'faulty.toml:9:1: error: job 2 "misspelt": unknown key "Budget": a similar key exists: "budget"'
} >"$work/faulty.checked"

# A job that expects another exit code than it has.
cat >"$work/failing.toml" <<'END'
[[job]]
name = "failing"
image = "a.elf"
budget = 3
expect_exit = 6
END

# A job's lines of a report: its number and name, its end, its steps, its verdict, and its signature where it has one.
row() {
    printf 'job %s\nend %s\nsteps %s\nconsole -\nsignature %s\nverdict %s\n' "$1" "$2" "$3" "${5:--}" "$4"
}

# The report of a list of one job.
report() {
    row "$@"
    echo 'done 1'
}

report '1 raw' 'exit 5' 2 none >"$work/raw.text"
report '1 one' 'exit 5' 2 none >"$work/one.text"
report '1 underscored' 'exit 5' 2 none >"$work/underscored.text"
report '1 failing' 'exit 5' 2 fail >"$work/failing.text"
{
    row '1 pass' 'exit 5' 2 pass
    row '2 fault' 'fault breakpoint pc=80000000 value=00000000' 0 none
    row '3 budget' 'budget' 2 none
    row '4 short' 'refused short-header' 0 none
    row '5 sign' 'exit 0' 9 none $'2\n80000000\nffffffff'
    echo 'done 5'
} >"$work/list.text"

# What rvtest shows of the list, and says of its files.
unexpected='expected: exit 0, since no expectation is set'
short='refused short-header: the file is shorter than an ELF header'
{
    printf 'FAIL fault: fault breakpoint at 80000000, value 00000000, after 0 steps\n     %s\n' "$unexpected"
    printf 'FAIL budget: budget used up after 2 steps\n     %s\n' "$unexpected"
    printf 'FAIL short: %s\n' "$short"
    echo '5 jobs: 2 passed, 3 failed (1 budget, 1 breakpoint, 1 refused), 13 steps'
} >"$work/list.shown"
{
    echo "list.toml:17: error: job 4 \"short\": $short"
    echo '5 jobs, 1 refused'
} >"$work/list.checked"
