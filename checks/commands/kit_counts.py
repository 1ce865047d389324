#!/usr/bin/env python3
"""checks/commands/kit_counts.py: tries the firmware kit's counts2lcov and counts2, with their readers of tables of counts and of DWARF lines, and make
cover and profile.

    checks/commands/kit_counts.py

What they must say is not theirs: pages of kit_counts.d were counted by hand; rows of lines are those of readelf; tables are summed and
refused as added.txt of checks/tables has it of `rvtest counts`. What needs Debian's gcc-riscv64-unknown-elf, or its lcov, is passed over
where that is not installed.
"""
import contextlib
import pathlib
import shutil
import sys
import tempfile

sys.dont_write_bytecode = True
TOP = pathlib.Path(__file__).resolve().parents[2]
sys.path[:0] = [str(TOP / "firmware"), str(TOP / "checks/commands/kit_counts.d"), str(TOP / "checks/lib")]
from counting.table import sum_of, table_at  # noqa: E402
from images import coverage, page, without_lines  # noqa: E402
from listing.files import Refused  # noqa: E402
from rows import broken_lines, lines  # noqa: E402
from shared import CROSS, Wrong, call, expect, put  # noqa: E402
from stacks import callgrinds, profiles  # noqa: E402
from tables import rows_of_file  # noqa: E402
from targets import profile, targets  # noqa: E402

FIRST, SECOND = "0" * 64, "1" * 64
TABLE = f"""rvcounts 1
image {FIRST} a b.elf
80000000 5 1
80000002 7 0
image {SECOND} c.elf
00000000 18446744073709551615 0
done 2 18446744073709551615
"""
# Wrong tables: the line that takes the place of one; a number of 0 puts it behind the end.
WRONG_LINES = [
    (1, "rvcounts 2"), (1, ""), (1, "rvcounts 1\r"), (0, "done 2 1"), (0, ""), (0, "done 2 18446744073709551615"),
    (2, f"image {'A' * 64} a.elf"), (2, f"image {FIRST}"), (2, "80000000 1 0"), (2, f"image  {FIRST} a.elf"), (2, "done 1 0"),
    (3, "spot 1 80000000 1 1 main"), (3, "spot 0 80000000 1 1"), (3, "80000001 5 1"), (4, "80000000 7 0"), (3, "80000000 0 0"),
    (3, "80000000 5 6"), (3, "80000000 05 1"), (3, "80000000  5 1"), (3, "80000000 5 1 "), (3, "8000000 5 1"),
    (3, "8000000A 5 1"), (3, "80000000 5"), (3, "80000000 18446744073709551616 1"), (3, "80000000 -5 1"),
    (3, "80000000 5 \xb2"), (4, "7ffffffe 7 0"), (5, "function 80000000 _start"), (5, f"image {FIRST} c.elf"),
    (5, "\udcff"), (6, "\udcff"), (7, "done 1 3"), (7, "done 02 3"), (7, "done 2 18446744073709551616"), (7, "done 2"), (7, "end 2 3"),
]


def refusal_of(*paths):
    """What is said of tables, or nothing where they are taken."""
    try:
        sum_of(paths)
    except Refused as refused:
        return str(refused)
    return None


# ---- tables

def wrong_tables():
    """Each wrong line is refused with its number, as is text behind the end; and each beginning of a table is cut off."""
    lines = TABLE.splitlines()
    for number, line in WRONG_LINES:
        changed = [*lines[:number - 1], line, *lines[number:]] if number else [*lines, line]
        path = put("wrong.counts", "".join(f"{it}\n" for it in changed))
        expect(f"line {number} as {line!r}", refusal_of(path), f"{path}:{number or len(changed)}: invalid line in a table of counts")
    for size in range(len(TABLE)):
        path = put("cut.counts", TABLE[:size])
        expect(f"the first {size} bytes", refusal_of(path), f"{path}: the table is truncated")
    behind = put("more.counts", f"{TABLE}more")
    expect("text behind the end", refusal_of(behind), f"{behind}:{len(lines) + 1}: invalid line in a table of counts")
    return f"{len(WRONG_LINES)} wrong lines and {len(TABLE)} cut tables"


def whole_table():
    """What a table says, each number of it."""
    (one, other), runs = table_at(put("whole.counts", TABLE))
    expect("the first image", (one.digest, one.path, one.counts), (FIRST, "a b.elf", {0x8000_0000: (5, 1), 0x8000_0002: (7, 0)}))
    expect("the second image", (other.digest, other.path, other.counts), (SECOND, "c.elf", {0: (2**64 - 1, 0)}))
    expect("the runs", runs, 2**64 - 1)
    expect("a table of nothing", table_at(put("none.counts", "rvcounts 1\ndone 0 0\n")), ([], 0))
    return "a table is read"


def text_of(images):
    """The text of a table, up to the number of its runs."""
    lines = [it for image in images for it in (
        f"image {image.digest} {image.path}\n", *(f"{address:08x} {begun} {taken}\n" for address, (begun, taken) in image.counts.items()),
        *(f"spot {len(functions) - 1} {functions[-1]:08x} {arrivals} {steps} {image.names[functions[-1]]}\n"
          for functions, (arrivals, steps) in image.spots.items()))]
    return f"rvcounts 1\n{''.join(lines)}done {len(images)} "


def sums():
    """Tables are summed, and refused, as `rvtest counts` does it: by the rows that are tried of it, but for where the sum goes."""
    put("list.toml", "[[job]]\n")
    pathlib.Path("folder").mkdir()
    expect("a folder", refusal_of("folder"), "folder: Is a directory")
    count = 0
    for row in rows_of_file(TOP / "checks/tables/added.txt", "words status shown told out a b c".split()):
        for cells in (it for it in row.asks if "--out" not in it["words"]):
            for name in "abc":
                put(name, cells.get(name, ""))
            _, *paths = cells["words"].split()
            where = f"row {row.number} of added.txt, {cells['words']}"
            if cells["status"] == "0":
                expect(where, text_of(sum_of(paths)), cells["shown"][:cells["shown"].rindex(" ") + 1])
            else:
                expect(where, f"rvtest: {refusal_of(*paths)}", cells["told"])
            count += 1
    return f"{count} sums of added.txt"


def refused_words():
    """Words that are refused, and images: nothing is written."""
    none = put("none.counts", f"rvcounts 1\nimage {FIRST} gone.elf\n80000000 5 1\ndone 1 1\n")
    other = put("other.counts", f"rvcounts 1\nimage {FIRST} a.elf\n80000000 5 1\ndone 1 1\n")
    put("a.elf", "another")
    cut = put("cut.counts", TABLE[:-1])
    rows = [
        ((), "are required: TABLE"), ((other, "--kee", "a"), "unrecognized arguments: --kee"), (("gone",), "counts2lcov: gone: No such file or directory"),
        ((cut,), "counts2lcov: cut.counts: the table is truncated"), ((none,), "counts2lcov: gone.elf: No such file or directory"),
        ((other,), "counts2lcov: a.elf: the image differs from that of the counts"),
    ]
    for words, said in rows:
        out, err = call("counts2lcov", *words, status=2)
        expect(f"{' '.join(words)}: what is written", out, "")
        if said not in err:
            raise Wrong(f"{' '.join(words)}: {err!r}, expected {said!r}")
    return f"{len(rows)} calls are refused"


CASES = [
    (wrong_tables, ()), (whole_table, ()), (sums, ()), (refused_words, ()), (profiles, ()), (callgrinds, ("gcc",)), (coverage, ("gcc",)),
    (without_lines, ("gcc",)), (lines, ("gcc",)), (broken_lines, ("gcc",)), (page, ("gcc", "genhtml")), (targets, ("gcc", "genhtml")),
    (profile, ("gcc",)),
]


def main():
    for case, needs in CASES:
        lacks = [it for it in needs if shutil.which(it if it == "genhtml" else CROSS + it) is None]
        if lacks:
            print(f"{case.__name__}: passed over, {', '.join(lacks)} is not installed")
            continue
        with tempfile.TemporaryDirectory() as folder, contextlib.chdir(folder):
            try:
                print(f"{case.__name__}: {case()}", flush=True)
            except Wrong as wrong:
                print(f"checks/commands/kit_counts.py: {case.__name__}: {wrong}", file=sys.stderr)
                return 1
    return 0


sys.exit(main())
