"""The cases over images: coverage, genhtml's page."""
import collections
import pathlib
import re
import subprocess

from making import build, counted
from shared import SAMPLES, call, expect, put


def of_page(name):
    """The counts, the marks of the branches and the totals that a page of genhtml's shows."""
    text = (SAMPLES / f"{name}.txt").read_text(encoding="utf-8")
    rows = re.findall(r"^ *([0-9]+) ([^:]*): *([0-9]*) :", text, re.M)
    counts = {int(line): int(count) for line, _, count in rows if count}
    marks = {int(line): re.findall(r"[-+#]", branches) for line, branches, _ in rows if branches.strip()}
    return counts, marks, {kind: (int(hit), int(all_of)) for kind, hit, all_of in re.findall(r"(\w+): +([0-9]+) +([0-9]+) +[0-9.]+ %", text)}


def of_tracefile(text):
    """The same of lcov's text of one source."""
    fields = collections.defaultdict(list)
    for kind, _, value in (line.partition(":") for line in text.splitlines()):
        fields[kind].append(value)
    expect("how many sources", len(fields["SF"]), 1)
    marks = collections.defaultdict(list)
    for line, block, number, count in (it.split(",") for it in fields["BRDA"]):
        expect("a branch's block and number", (block, int(number)), ("0", len(marks[int(line)])))
        marks[int(line)].append("#" if count == "-" else "+" if int(count) else "-")
    totals = {"Lines": ("LH", "LF"), "Functions": ("FNH", "FNF"), "Branches": ("BRH", "BRF")}
    counts = {int(line): int(count) for line, count in (it.split(",") for it in fields["DA"])}
    return counts, dict(marks), {kind: tuple(int(fields[it][0]) for it in both) for kind, both in totals.items()}


def coverage():
    """Lines, branches and functions of one image, and of two that share a source, as on the pages of the study."""
    hand = counted("hand", build("hand", 0x8000_0060))
    out, err = call("counts2lcov", hand)
    expect("hand.c", of_tracefile(out), of_page("hand"))
    expect("what is lost", err, "counts2lcov: hand.elf: 19 counts run, and no code of the file\n")
    functions = sorted(line for line in out.splitlines() if line.startswith(("FN:", "FNDA:")))
    expect("functions", functions, ["FN:11,sum", "FN:19,never", "FN:26,oneway", "FN:37,main", "FNDA:0,never", "FNDA:1,main", "FNDA:1,sum", "FNDA:3,oneway"])
    ways = [line for line in out.splitlines() if line.startswith("BRDA:")]
    expect("how often each branch was taken, and was not", ways, [
        "BRDA:6,0,0,3", "BRDA:6,0,1,2", "BRDA:14,0,0,1", "BRDA:14,0,1,5", "BRDA:21,0,0,-", "BRDA:21,0,1,-", "BRDA:28,0,0,0", "BRDA:28,0,1,3",
        "BRDA:40,0,0,3", "BRDA:40,0,1,1"])
    both = [counted("alpha", build("codec", 0x8000_00f6)), counted("beta", build("codec", 0x8000_0140))]
    for order in (both, both[::-1]):
        out, _ = call("counts2lcov", *order, "--keep", "*/codec.c")
        expect("codec.c", of_tracefile(out), of_page("codec"))
    inlined = of_tracefile(call("counts2lcov", *both, "--keep", "/s/*.h", "--keep", "/none/*")[0])[0]
    expect("30 characters, of which 2 are high", (inlined[8], inlined[9]), (30, 2))
    expect("no source is kept", call("counts2lcov", *both, "--keep", "/none/*")[0], "")
    return "the pages hand.txt and codec.txt"


def without_lines():
    """No line is made up for code that has none."""
    out, err = call("counts2lcov", counted("hand", build("hand", 0x8000_0060, "-g0")))
    expect("what is told of it", (out, err.splitlines()), ("", [
        "counts2lcov: hand.elf: 19 counts run, and no code of the file", "counts2lcov: hand.elf: 84 counts run, with no line"]))
    return "an image without lines"


def page():
    """genhtml makes pages of it."""
    out, _ = call("counts2lcov", counted("hand", build("hand", 0x8000_0060)))
    put("cover.info", out.replace("SF:/s/", f"SF:{SAMPLES}/"))
    subprocess.run(["genhtml", "--branch-coverage", "--quiet", "--output-directory", "html", "cover.info"], check=True)
    expect("the page", [it.name for it in pathlib.Path("html").rglob("*.gcov.html")], ["hand.c.gcov.html"])
    return "genhtml's page of hand.c"
