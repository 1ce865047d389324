"""The cases of counts2, over stacks that were counted by hand."""
import hashlib
import pathlib
import re

from making import build
from shared import call, expect, put

# _start calls main, which calls fib(2), which calls fib(1) and fib(0); behind them stands code that no symbol covers.
STACKS = """spot 0 80000000 1 2 _start
spot 1 80000010 1 4 main
spot 2 00000000 1 1 ?
spot 2 80000020 1 6 fib
spot 3 80000020 2 7 fib
"""
COUNTS = """80000000 1 0
80000004 1 0
80000010 1 0
80000014 3 1
80000020 3 1
80000022 10 2
80000100 1 0
"""
FLAT = """{0}: 20 steps
         own       %    inclusive       %      calls  function
          13  65.00%           13  65.00%          3  fib
           4  20.00%           18  90.00%          1  main
           2  10.00%           20 100.00%          1  _start
           1   5.00%            1   5.00%          1  ?
"""
FOLDED = """{0};_start 2
{0};_start;main 4
{0};_start;main;? 1
{0};_start;main;fib 6
{0};_start;main;fib;fib 7
"""


def table(name, *images):
    """A table of images: of each its digest, its path, and its counts and stacks."""
    text = "".join(f"image {digest} {path}\n{lines}" for digest, path, lines in images)
    return put(name, f"rvcounts 1\n{text}done {len(images)} 1\n")


def profiles():
    """By function and folded: of one image, of two, of some by their paths, and of the sum of tables."""
    one, other = ("0" * 64, "a/fib.elf", COUNTS + STACKS), ("1" * 64, "b/fib.elf", COUNTS + STACKS)
    first, both = table("first.counts", one), table("both.counts", one, other)
    expect("by function", call("counts2", "flat", first), (FLAT.format("a/fib.elf"), ""))
    expect("folded", call("counts2", "folded", first), (FOLDED.format("fib.elf"), ""))
    expect("two images", call("counts2", "flat", both)[0], FLAT.format("a/fib.elf") + FLAT.format("b/fib.elf"))
    expect("one of two", call("counts2", "flat", both, "--image", "b/*")[0], FLAT.format("b/fib.elf"))
    twice = call("counts2", "folded", first, first)[0]
    expect("a sum", twice, re.sub(" ([0-9]+)$", lambda it: f" {2 * int(it[1])}", FOLDED.format("fib.elf"), flags=re.M))
    bare, nothing = table("bare.counts", (*one[:2], COUNTS)), table("nothing.counts", (*one[:2], ""))
    expect("an image of which nothing began", call("counts2", "folded", nothing), ("\n", ""))
    rows = [
        (("flat", bare), "counts2: a/fib.elf: its counts have no stacks: count it with --stacks\n"), (("flat", "gone"), "counts2: gone: No such file or directory\n"),
        (("flat", first, "--image", "c*"), "counts2: first.counts: no image matches c*\n"), (("callgrind", first), "counts2: a/fib.elf: No such file or directory\n"),
    ]
    for words, said in rows:
        expect(f"{' '.join(words)}", call("counts2", *words, status=2), ("", said))
    return f"profiles by hand, and {len(rows)} calls refused"


# hand.c at 0x80000060, of which `sum` was called from line 40 of main; lines and addresses are those of hand.counts.
def callgrinds():
    """Callgrind's text: each own step at its line, each call with the steps below it."""
    image = build("hand", 0x8000_0060)
    pathlib.Path("hand.elf").write_bytes(image)
    spots = "80000060 4 0\n80000062 3 0\nspot 0 80000060 1 4 outer\nspot 1 80000062 2 4 inner\n"
    out = call("counts2", "callgrind", table("hand.counts", (hashlib.sha256(image).hexdigest(), "hand.elf", spots)))[0]
    own = re.findall("^0x[0-9a-f]+ [0-9]+ ([0-9]+)$", out, re.M)
    expect("the sum of all", ("\nsummary: 8\n" in out, out.endswith("\ntotals: 8\n")), (True, True))
    expect("own steps, and those below the call", own, ["4", "4", "4"])
    expect("the call", re.findall("^(?:fn|cfn|calls)=.*$", out, re.M)[:3], ["fn=outer", "cfn=inner", "calls=2 0x80000062 14"])
    return "callgrind's text of two functions"
