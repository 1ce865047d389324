#!/usr/bin/env python3
"""checks/commands/counts.py: tries `rvtest run --counts` and `rvtest counts`, by the built rvtest, beside programs that are not ours.

    checks/commands/counts.py

Some 6,000 changed texts of a table are either refused, by the words that the firmware kit's own reader has for them, or their sum is the
text itself. The counts of a C program's lines are those that the host's gcc and gcov give it. The page that genhtml makes of them, as
Chromium shows it, has each line's count. Of a profile in callgrind's format callgrind_annotate reads the steps that `rvtest profile` tells.
"""
import collections
import concurrent.futures
import contextlib
import csv
import html
import os
import pathlib
import re
import subprocess
import sys
import tempfile

sys.dont_write_bytecode = True
TOP = pathlib.Path(__file__).resolve().parents[2]
KIT = TOP / "firmware"
SAMPLES = TOP / "checks/commands/counts.d"
CODEC = TOP / "checks/commands/kit_counts.d"
sys.path[:0] = [str(KIT)]
from counting.table import sum_of  # noqa: E402
from listing.files import Refused  # noqa: E402

RVTEST = TOP / "rvtest"
TABLE = f"""rvcounts 1
image {"0" * 64} a b.elf
80000000 5 1
80000002 7 0
8000001a 10 10
image {"1" * 64} c.elf
00000000 18446744073709551615 0
done 2 18446744073709551615
""".encode()
PUT_IN = b"\n\t 012589abfgA-.id\x00\x7f\xc3\xff"
# Of the lines of these sources so many at least have a count in both: a function's count stands at its line in one, at its `{` in the other.
FEWEST_LINES = 30


class Wrong(Exception):
    """What is not as it should be."""


def expect(what, found, wanted):
    """Whether something is what it should be."""
    if found != wanted:
        raise Wrong(f"{what}: {found!r}, expected {wanted!r}")


def called(*words, **more):
    """A program that must end with status 0, and what it prints."""
    done = subprocess.run(words, capture_output=True, encoding="utf-8", check=False, stdin=subprocess.DEVNULL, **more)
    expect(f"{' '.join(map(str, words))}: status, beside {done.stderr!r}", done.returncode, 0)
    return done.stdout


# ---- changed tables

def changed_texts():
    """The table without each byte, with it twice, and with another in its place."""
    for place in range(len(TABLE)):
        before, byte, behind = TABLE[:place], TABLE[place:place + 1], TABLE[place + 1:]
        yield before + behind
        yield before + byte + byte + behind
        yield from (before + bytes([other]) + behind for other in PUT_IN if other != byte[0])


def refusal_of(path):
    """What the kit's reader says of a text, or nothing where it takes it."""
    try:
        sum_of([path])
    except Refused as refused:
        return f"rvtest: {refused}\n"
    return None


def asked_of(numbered):
    """Asks for the sum of one text: whether it is a table."""
    number, text = numbered
    path = f"{number}.counts"
    pathlib.Path(path).write_bytes(text)
    done = subprocess.run([RVTEST, "counts", path], capture_output=True, check=False, stdin=subprocess.DEVNULL)
    refusal = refusal_of(path)
    if refusal is None:
        expect(f"the sum of {text!r}", (done.returncode, done.stdout), (0, text))
    else:
        expect(f"the sum of {text!r}", (done.returncode, done.stdout, done.stderr.decode()), (2, b"", refusal))
    os.remove(path)
    return refusal is None


def changed_tables():
    """Each changed text is refused, or is the one text of what was read."""
    with concurrent.futures.ThreadPoolExecutor(os.cpu_count()) as pool:
        taken = list(pool.map(asked_of, enumerate(changed_texts())))
    return f"{len(taken)} changed texts: {sum(taken)} are tables, {len(taken) - sum(taken)} are refused"


# ---- the host's gcov

def counts_of_gcov(text):
    """The counts of lines as gcov shows them: `#####` is 0."""
    rows = re.findall(r"^ *([0-9]+|#####)\*?: *([0-9]+):", text, re.M)
    return {int(line): 0 if count == "#####" else int(count) for count, line in rows}


def counts_of_lcov(text):
    """The counts of lines of each source of lcov's text, by its name."""
    sources = {}
    for kind, _, value in (line.partition(":") for line in text.splitlines()):
        if kind == "SF":
            counts = sources.setdefault(pathlib.Path(value).name, {})
        elif kind == "DA":
            line, count = value.split(",")
            counts[int(line)] = int(count)
    return sources


def made_by_kit():
    """The counts of beta.c and what it calls, as the kit's make cover makes them of the built rvtest."""
    test = pathlib.Path("t")
    test.mkdir()
    (test / "beta.c").write_bytes((SAMPLES / "beta.c").read_bytes())
    (test / "beta.flags").write_text(f"-I{CODEC} {CODEC / 'codec.c'}\n", encoding="utf-8")
    called("make", "--no-print-directory", "-f", KIT / "Makefile", "cover", "TESTS=t", f"RVTEST={RVTEST}", "KEEP=*/beta.c */codec.*")
    return counts_of_lcov(pathlib.Path("t/build/cover/cover.info").read_text(encoding="utf-8"))


def made_by_host():
    """The same of the host's gcc and gcov."""
    called("gcc", "-O0", "--coverage", f"-I{CODEC}", SAMPLES / "beta.c", CODEC / "codec.c", "-o", "beta")
    called("./beta")
    called("gcov", *(it.name for it in pathlib.Path(".").glob("*.gcda")))
    sources = [pathlib.Path(f"{name}.gcov") for name in ("beta.c", "codec.c", "codec.h")]
    return {it.stem: counts_of_gcov(it.read_text(encoding="utf-8")) for it in sources}


def lines_as_gcov():
    """Each line that has a count in both has the same."""
    ours, theirs = made_by_kit(), made_by_host()
    expect("the sources", sorted(ours), sorted(theirs))
    compared = 0
    for source, counts in sorted(theirs.items()):
        both = sorted(set(counts) & set(ours[source]))
        expect(f"{source}: counts of its lines", {line: ours[source][line] for line in both}, {line: counts[line] for line in both})
        compared += len(both)
    if compared < FEWEST_LINES:
        raise Wrong(f"{compared} lines alone have counts in both")
    return f"{compared} lines have the counts of the host's gcov"


def page_in_a_browser():
    """Chromium shows genhtml's page of codec.c with each line's count."""
    page, = pathlib.Path("t/build/cover/html").rglob("codec.c.gcov.html")
    words = ["--headless", "--no-sandbox", "--disable-gpu", "--user-data-dir=browser", "--dump-dom", page.resolve().as_uri()]
    shown = html.unescape(re.sub("<[^>]*>", "", called("chromium", *words)))
    rows = re.findall(r"^ *([0-9]+) [^:]*: *([0-9]*) :", shown, re.M)
    ours = counts_of_lcov(pathlib.Path("t/build/cover/cover.info").read_text(encoding="utf-8"))["codec.c"]
    expect("the counts of the page", {int(line): int(count) for line, count in rows if count}, ours)
    return f"Chromium shows {len(ours)} counts of codec.c"


def steps_by_callgrind():
    """The steps of each function by callgrind_annotate, which tells those of a function by the files of its lines."""
    called("make", "--no-print-directory", "-f", KIT / "Makefile", "profile", "TESTS=t", f"RVTEST={RVTEST}")
    text = called("callgrind_annotate", "--threshold=100", "--show-percs=no", "--auto=no", "t/build/callgrind.out")
    found = collections.Counter()
    for steps, function in re.findall(r"^ *([0-9,]+)  [^ ]*:([^ :]+)(?: \[.*\])?$", text, re.M):
        found[function] += int(steps.replace(",", ""))
    return dict(found)


def profile_by_callgrind():
    """callgrind_annotate has the own steps of each function that `rvtest profile` has."""
    theirs = steps_by_callgrind()
    rows = csv.DictReader(called(RVTEST, "profile", "t/build/t.toml", "--csv").splitlines())
    ours = {row["function"]: int(row["self"]) for row in rows if int(row["self"])}
    expect("the steps of functions", theirs, ours)
    return f"callgrind_annotate has the steps of {len(ours)} functions"


CASES = [changed_tables, lines_as_gcov, page_in_a_browser, profile_by_callgrind]


def main():
    with tempfile.TemporaryDirectory() as folder, contextlib.chdir(folder):
        for case in CASES:
            try:
                print(f"{case.__name__}: {case()}", flush=True)
            except Wrong as wrong:
                print(f"checks/commands/counts.py: {case.__name__}: {wrong}", file=sys.stderr)
                return 1
    return 0


sys.exit(main())
