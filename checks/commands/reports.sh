#!/usr/bin/env bash
# Runs what the built rvtest makes of reports: JUnit's XML, which two readers that are not ours read back, differences, and what is
# shown. The XML must fit the schema in checks/lib/junit.xsd, and Debian's python3-junitparser must find in it the rows' names in their order,
# their failures and errors, and each console as it was. What differences and show print must be what stands here.
#   checks/commands/reports.sh              all of it
#   checks/commands/reports.sh --install    installs the Debian packages that it needs, and does no more
# It is no part of the merge gate.
set -euo pipefail
cd "$(dirname "$0")/../.."
packages=(libxml2-utils python3-junitparser)

if [ "${1:-}" = --install ]; then
    apt-get update
    exec apt-get install -y --no-install-recommends "${packages[@]}"
fi

# shellcheck source=checks/lib/fixtures.bash
source checks/lib/fixtures.bash
command -v xmllint >/dev/null || fail "there is no xmllint: checks/commands/reports.sh --install installs ${packages[*]}"
/usr/bin/python3 -c 'import junitparser' 2>/dev/null || fail "there is no junitparser: checks/commands/reports.sh --install installs ${packages[*]}"
schema=$PWD/checks/lib/junit.xsd
cd "$work"

# Sets x10 to 0 and x17 to 93, then ECALL: exit 0.
image '00000513 X' >z.elf

# Runs rvtest, and gives its status in `status`; its words go to out and err.
run() {
    status=0
    ./rvtest "$@" >out 2>err || status=$?
}

# Fails where the last run ended with another status.
#   ends NAME STATUS
ends() {
    [ "$status" = "$2" ] || fail "$1: status $status, standard output '$(head -n 20 out)', standard error '$(head -n 20 err)'"
    printf '%s: status %s\n' "$1" "$status"
}

fits() {
    xmllint --noout --schema "$schema" "$1" 2>lint || fail "$1: $(<lint)"
}

# ---- JUnit's XML of reports, read back

cat >rows.py <<'END'
"""Reports, and what their rows must be in JUnit's XML."""
import os, random, re, subprocess, sys
import junitparser


class Row:
    def __init__(self, name, end="exit 0", steps=5, console=b"", signature=None, verdict="none"):
        self.name, self.end, self.steps = name, end, steps
        self.console, self.signature, self.verdict = console, signature, verdict

    def text(self, number):
        words = ["-"] if self.signature is None else [str(len(self.signature)), *self.signature]
        return (f"job {number} {self.name}\nend {self.end}\nsteps {self.steps}\nconsole {self.console.hex() or '-'}\n"
                "signature " + "\n".join(words) + f"\nverdict {self.verdict}\n")

    def passes(self, lenient):
        return self.verdict == "pass" or self.verdict == "none" and (lenient or self.end == "exit 0")

    def line(self):
        end = self.end
        fault = re.fullmatch(r"fault (\S+) pc=(\S+) value=(\S+)", end)
        if fault:
            end = "fault %s at %s, value %s," % fault.groups()
        end = end.replace("budget", "budget used up")
        steps = "" if end.startswith("refused") else f" after {self.steps} steps"
        return f"FAIL {self.name}: {end}{steps}"


def report(rows, last=None):
    return "".join(row.text(at + 1) for at, row in enumerate(rows)) + (last or f"done {len(rows)}") + "\n"


def shown(console):
    """Characters of XML as they are, and each other byte as \\xNN: by Python's own decoder."""
    return "".join(
        one if re.fullmatch("[\t\n\r\x20-\ud7ff\ue000-\ufffd\U00010000-\U0010ffff]", one)
        else "".join(f"\\x{byte:02x}" for byte in one.encode())
        for one in console.decode("utf-8", "backslashreplace"))


def problem(row, lenient):
    if row.passes(lenient):
        return None
    return junitparser.Error if row.end.startswith("refused") else junitparser.Failure


def check(name, rows, lenient, file, classname):
    suites = list(junitparser.JUnitXml.fromfile(file))
    assert len(suites) == 1, f"{name}: {len(suites)} suites"
    suite, = suites
    kinds = [problem(row, lenient) for row in rows]
    counted = suite.tests, suite.failures, suite.errors
    wanted = len(rows), kinds.count(junitparser.Failure), kinds.count(junitparser.Error)
    assert counted == wanted, f"{name}: {counted} in place of {wanted}"
    assert suite.name == classname, f"{name}: the suite {suite.name!r}"
    steps = [(one.name, one.value) for one in suite.properties()]
    assert steps == [(f"steps.{row.name}", str(row.steps)) for row in rows], f"{name}: other steps"
    cases = list(suite)
    assert [case.name for case in cases] == [row.name for row in rows], f"{name}: other names"
    for case, row, kind in zip(cases, rows, kinds):
        assert case.classname == classname, f"{name}: {row.name}: the class {case.classname!r}"
        found = [(type(one), one.message, one.text) for one in case.result]
        lines = [] if kind is None else [(kind, row.line(), row.line() + "\n")]
        assert found == lines, f"{name}: {row.name}: {found} in place of {lines}"
        out = f"{row.steps} steps\n" + shown(row.console)
        assert case.system_out == out, f"{name}: {row.name}: another console"


def ask(name, rows, last=None, lenient=False, file="rows.txt"):
    with open(file, "w") as it:
        it.write(report(rows, last))
    words = ["./rvtest", "show", file, "--junit", "rows.xml"] + ["--lenient"] * lenient
    status = subprocess.run(words, stdout=subprocess.PIPE).returncode
    assert status == (0 if all(row.passes(lenient) for row in rows) else 1), f"{name}: status {status}"
    lint = ["xmllint", "--noout", "--schema", sys.argv[1], "rows.xml"]
    subprocess.run(lint, check=True, stderr=subprocess.DEVNULL)
    check(name, rows, lenient, "rows.xml", os.path.basename(file).rsplit(".", 1)[0])
    print(f"{name}{', leniently' * lenient}: {len(rows)} cases as they are")


random.seed(1)
fault = "fault load-access pc=80000088 value=00000000"
endings = [Row("exit"), Row("other", "exit 3"), Row("asked", "exit 3", verdict="pass"), Row("missed", verdict="fail"),
           Row("fault", fault), Row("fault-asked", fault, verdict="pass"), Row("budget", "budget", 1000000000),
           Row("refused", "refused bad-magic", 0), Row("refused-missed", "refused image-unreadable", 0, verdict="fail")]
texts = ["plain\n", "tabs\tand\r\nlines\r", "<a href=\"b\">&amp;</a> ]]> '", "\\x00 \\", "Grüße, 世界 \U0001f600\x85\x7f"]
broken = [b"\xc2", b"\xe2\x82", b"\xe2\x82x", b"\xf0\x9f\x98", b"\xc0\x80", b"\xed\xa0\x80", b"\xed\x9f\xbf", b"\xef\xbf\xbe",
          b"\xef\xbf\xbf", b"\xef\xbf\xbd", b"\xf4\x8f\xbf\xbf", b"\xf4\x90\x80\x80", b"\xf8\x88\x80\x80\x80", b"\xff\xfe"]
letters = "ABCDEFGHIJKLMNOPQRSTUVWXYZabcdefghijklmnopqrstuvwxyz0123456789._-"
for lenient in (False, True):
    ask("every ending", endings, lenient=lenient)
    ask("the same in another order", endings[::-1], lenient=lenient)
ask("no job", [])
ask("a part without jobs", [], "part 0 of 5 shard 7/7 stamp x")
ask("texts", [Row(f"t{at}", console=text.encode()) for at, text in enumerate(texts)])
ask("every byte, alone", [Row(f"b{byte}", console=bytes([byte])) for byte in range(256)])
ask("every byte, together", [Row("bytes", console=bytes(range(256))), Row("back", console=bytes(range(255, -1, -1)))])
ask("what is no UTF-8 or no XML", [Row(f"c{at}", console=one) for at, one in enumerate(broken)])
ask("65,536 bytes", [Row("long", "exit 1", console=random.randbytes(65536)), Row("x", console=b"<" * 65536)])
ask("names", [Row(letters[:64]), Row(letters[1:]), *[Row(one) for one in letters]])
ask("4,096 jobs", [Row(f"j{at}", f"exit {at % 2}", at) for at in range(4096)])
os.mkdir("a.d")
ask("a path with a folder", endings, file="a.d/a&b <c>.d.txt")
END
/usr/bin/python3 rows.py "$schema" || fail 'the XML is not what the rows are'

# ---- where it goes

run show rows.txt --junit -
ends 'to standard output' 1
mv out piped.xml
fits piped.xml
[ -s err ] || fail 'to standard output: what is shown went nowhere'
run show rows.txt --junit /dev/null
ends 'to a device' 1
run show rows.txt --junit folder/none.xml
ends 'to a folder that is not there' 3
grep -q 'folder/none.xml' err || fail "the message does not name the file: $(<err)"

# ---- runs and merges

cat >jobs.toml <<'END'
[[job]]
name = "passes"
image = "z.elf"
budget = 3

[[job]]
name = "fails"
image = "a.elf"
budget = 3
expect_exit = 6

[[job]]
name = "is-refused"
image = "missing.elf"
budget = 3

[[job]]
name = "faults"
image = "f.elf"
budget = 3
END
run run jobs.toml --junit jobs.xml --report whole.txt
ends 'a run' 1
fits jobs.xml
/usr/bin/python3 - <<'END' || fail 'a run: the cases are not its rows'
import junitparser
suite, = junitparser.JUnitXml.fromfile("jobs.xml")
cases = list(suite)
assert (suite.name, suite.tests, suite.failures, suite.errors) == ("jobs", 4, 2, 1)
assert [case.name for case in cases] == ["passes", "fails", "is-refused", "faults"]
kinds = [[type(one).__name__ for one in case.result] for case in cases]
assert kinds == [[], ["Failure"], ["Error"], ["Failure"]], kinds
text = cases[1].result[0].text
assert text == "FAIL fails: exit 5 after 2 steps\n     expected: exit 6\n", text
assert cases[2].result[0].message == "FAIL is-refused: refused image-unreadable: missing.elf: No such file or directory", cases[2].result[0].message
assert cases[3].result[0].text.endswith("expected: exit 0, since no expectation is set\n")
END
for part in 1 2; do
    run run jobs.toml --shard "$part/2" --stamp x --report "part$part.txt" --quiet
    [ "$status" -le 1 ] || fail "shard $part: status $status, $(<err)"
done
run merge part2.txt part1.txt --junit merged.xml --report merged.txt
ends 'a merge' 1
cmp merged.txt whole.txt
fits merged.xml
run show merged.txt --junit shown.xml
ends 'the merged report' 1
/usr/bin/python3 - <<'END' || fail 'a merge: the cases are not those of the report'
import junitparser
def cases(file):
    suite, = junitparser.JUnitXml.fromfile(file)
    return [(case.name, [(type(one).__name__, one.text) for one in case.result], case.system_out) for case in suite]
assert cases("merged.xml") == cases("shown.xml")
END

# ---- differences

# A report of rows `NAME END STEPS CONSOLE SIGNATURE VERDICT`, of which words of a signature stand between commas.
report_of() {
    local number=0 name end steps console words verdict
    while read -r name end steps console words verdict; do
        number=$((number + 1))
        printf 'job %d %s\nend %s\nsteps %s\nconsole %s\n' "$number" "$name" "${end//_/ }" "$steps" "$console"
        case $words in
        -) echo 'signature -' ;;
        none) echo 'signature 0' ;;
        *) printf 'signature %d\n%s\n' "$(tr ',' '\n' <<<"$words" | wc -l)" "$(tr ',' '\n' <<<"$words")" ;;
        esac
        printf 'verdict %s\n' "$verdict"
    done
    printf 'done %d\n' "$number"
}

# Compares two reports: the words behind the reports, the status, and on standard input what must be printed.
#   differ NAME STATUS [WORD..]
differ() {
    local name=$1 wanted=$2
    shift 2
    cat >wanted
    run diff old.txt new.txt "$@"
    cmp -s out wanted || fail "$name: $(diff out wanted)"
    ends "$name" "$wanted"
}

fault=fault_load-access_pc=80000088_value=00000000
other=fault_load-access_pc=8000008c_value=00000001
base="a exit_0 5 6869 0000000a,0000000b pass
b exit_0 5 - - none
c $fault 5 - - none"
report_of <<<"$base" >old.txt
cp old.txt new.txt
differ 'a report and itself' 0 <<<'0 of 3 jobs differ: 0 gone, 0 new, 0 changed'
differ 'a report and itself, with steps' 0 --steps <<<'0 of 3 jobs differ: 0 gone, 0 new, 0 changed'
report_of <<<"$(tac <<<"$base")" >new.txt
differ 'moved jobs' 0 <<<'0 of 3 jobs differ: 0 gone, 0 new, 0 changed'
report_of <<<"$(sed 1d <<<"$base")" >new.txt
differ 'a job taken out' 1 <<<'- a
1 of 3 jobs differ: 1 gone, 0 new, 0 changed'
report_of <<<"first exit_0 5 - - none
$base" >new.txt
differ 'a job added in front' 1 <<<'+ first
1 of 4 jobs differ: 0 gone, 1 new, 0 changed'
report_of <<<"${base/b exit/renamed exit}" >new.txt
differ 'a job renamed' 1 <<<'- b
+ renamed
2 of 4 jobs differ: 1 gone, 1 new, 0 changed'
report_of <<<"${base/b exit_0/b exit_7}" >new.txt
differ 'another code' 1 <<<'! b: exit 0 -> exit 7
1 of 3 jobs differ: 0 gone, 0 new, 1 changed'
report_of <<<"${base/b exit_0/b refused_bad-magic}" >new.txt
differ 'a refusal' 1 <<<'! b: exit 0 -> refused bad-magic
1 of 3 jobs differ: 0 gone, 0 new, 1 changed'
report_of <<<"${base/b exit_0/b $fault}" >new.txt
differ 'a fault' 1 <<<'! b: exit 0 -> fault load-access pc=80000088 value=00000000
1 of 3 jobs differ: 0 gone, 0 new, 1 changed'
report_of <<<"${base/b exit_0/b budget}" >new.txt
differ 'a budget' 1 <<<'! b: exit 0 -> budget
1 of 3 jobs differ: 0 gone, 0 new, 1 changed'
report_of <<<"${base/6869/686a0a}" >new.txt
differ 'another console' 1 <<<'! a: console byte 1: "i" -> "j\x0a"
1 of 3 jobs differ: 0 gone, 0 new, 1 changed'
report_of <<<"${base/6869/68}" >new.txt
differ 'a shorter console' 1 <<<'! a: console 2 bytes -> 1 byte
1 of 3 jobs differ: 0 gone, 0 new, 1 changed'
report_of <<<"${base/0000000b/ffffffff}" >new.txt
differ 'another word' 1 <<<'! a: signature word 1: 0000000b -> ffffffff
1 of 3 jobs differ: 0 gone, 0 new, 1 changed'
report_of <<<"${base/,0000000b/}" >new.txt
differ 'fewer words' 1 <<<'! a: signature 2 words -> 1 word
1 of 3 jobs differ: 0 gone, 0 new, 1 changed'
report_of <<<"${base/0000000a,0000000b/-}" >new.txt
differ 'no signature' 1 <<<'! a: signature 2 words -> none
1 of 3 jobs differ: 0 gone, 0 new, 1 changed'
report_of <<<"${base/pass/fail}" >new.txt
differ 'another verdict' 1 <<<'! a: verdict pass -> fail
1 of 3 jobs differ: 0 gone, 0 new, 1 changed'
report_of <<<"$(sed "s/ 5 / 6 /; s/$fault/$other/" <<<"$base")" >new.txt
differ 'steps and places alone' 0 <<<'0 of 3 jobs differ: 0 gone, 0 new, 0 changed'
differ 'steps and places, where they are asked for' 1 --steps <<<'! a: steps 5 -> 6
! b: steps 5 -> 6
! c: fault load-access pc=80000088 value=00000000 -> fault load-access pc=8000008c value=00000001
! c: steps 5 -> 6
3 of 3 jobs differ: 0 gone, 0 new, 3 changed'
cp whole.txt old.txt
cp part1.txt new.txt
differ 'a report and a part of it' 1 <<<'- fails
- faults
2 of 4 jobs differ: 2 gone, 0 new, 0 changed'
report_of <<<"$base
a exit_0 5 - - none" >new.txt
run diff old.txt new.txt
ends 'a name twice' 2
head -c 20 old.txt >new.txt
run diff old.txt new.txt
ends 'a report that is cut off' 2
run diff old.txt missing.txt
ends 'a report that is not there' 3

# ---- show

cat >wanted <<'END'
FAIL b: exit 7 after 5 steps
FAIL c: fault load-access at 80000088, value 00000000, after 5 steps
FAIL d: budget used up after 9 steps
FAIL e: refused bad-magic
5 jobs: 1 passed, 4 failed (1 exit, 1 budget, 1 load-access, 1 refused), 24 steps
most steps:
  9 d
  5 a
  5 b
  5 c
  0 e
END
report_of <<<"a exit_0 5 6869 - pass
b exit_7 5 - - none
c $fault 5 - - none
d budget 9 - - none
e refused_bad-magic 0 - - none" >rows.txt
run show rows.txt
cmp out wanted
ends 'each ending' 1
run show rows.txt --lenient
ends 'each ending, leniently' 0
grep -qx '5 jobs: 5 passed, 0 failed, 24 steps' out || fail "leniently: $(<out)"
echo 'reports: all is as it must be'
