#!/usr/bin/env python3
"""Merges a part that is cut at each byte, a part of which each byte is changed in turn, and parts of 16 MB, and compares with what
a reader of the text's form says, which is written anew here. Then merges the parts of a report in each order.

    checks/lib/merge.py RVTEST FIRST SECOND REPORT PART..
"""
import itertools
import os
import re
import subprocess
import sys

from kinds import fault_kinds

NAME = r"[A-Za-z0-9._-]{1,64}"
NUMBER = r"(?:0|[1-9][0-9]*)"
WORD = r"[0-9a-f]{8}"
REFUSALS = [
    "image-unreadable", "image-too-long", "reference-unreadable", "reference-too-long", "short-header", "bad-magic",
    "not-32-bit", "not-little-endian", "bad-version", "not-executable", "not-riscv", "program-table", "dynamic",
    "segment-sizes", "segment-file", "no-segment", "entry-odd", "entry-align", "segment-map", "segment-overlap",
    "section-table", "no-symbols", "symbol-table", "string-table", "no-begin", "no-end", "signature-range",
]
END = (
    rf"end (?:exit {NUMBER}|budget|refused (?:{'|'.join(REFUSALS)})"
    rf"|fault (?:{'|'.join(fault_kinds())}) pc={WORD} value={WORD})\n"
)
ROW = re.compile(
    rf"job ({NUMBER}) ({NAME})\n{END}steps {NUMBER}\nconsole (?:-|(?:[0-9a-f]{{2}})+)\n"
    rf"signature (-|{NUMBER})\n((?:{WORD}\n)*)verdict (?:none|pass|fail)\n"
)
LAST = re.compile(rf"part ({NUMBER}) of ({NUMBER}) shard ({NUMBER})/({NUMBER}) stamp ({NAME})\n\Z")


def row_is_good(row):
    """Whether a row's signature has as many words as it says, and its numbers 32 bits."""
    words = len(row.group(4)) // 9
    if row.group(3) == "-":
        signed = words == 0
    else:
        signed = int(row.group(3)) == words <= 65_536
    values = re.findall(r"^(?:end exit|steps) ([0-9]+)$", row.group(), re.MULTILINE)
    return signed and all(int(value) < 2**32 for value in values)


def rows_of(text):
    """The rows of a part with their numbers and names, and its last line's values; or None for no part."""
    rows, rest = [], text
    while rest.startswith("job "):
        row = ROW.match(rest)
        if row is None or not row_is_good(row):
            return None
        rows.append((int(row.group(1)), row.group(2), row.group()))
        rest = rest[row.end():]
    last = LAST.match(rest)
    if last is None:
        return None
    count, jobs, number, shards = (int(last.group(at)) for at in (1, 2, 3, 4))
    fits = 1 <= number <= shards <= 4096 and jobs <= 4096 and count == len(rows)
    names = {name for _, name, _ in rows}
    if not fits or len(names) != len(rows) or [n for n, _, _ in rows] != list(range(number, jobs + 1, shards)):
        return None
    return rows, jobs, number, shards, last.group(5)


def merged(first, second):
    """The report that two texts make, or None where they are refused."""
    parts = [rows_of(first), rows_of(second)]
    if None in parts:
        return None
    (some, jobs, number, shards, stamp), (more, *others) = parts
    if others[0] != jobs or others[2:] != [shards, stamp]:
        return None
    if {number, others[1]} != set(range(1, shards + 1)) or (number == others[1] and first != second):
        return None
    rows = sorted({n: (name, row) for n, name, row in some + more}.items())
    if len({name for _, (name, _) in rows}) != len(rows):
        return None
    return "".join(row for _, (_, row) in rows) + f"done {jobs}\n"


def run(rvtest, *parts):
    done = subprocess.run([rvtest, "merge", "--lenient", *parts], capture_output=True, check=False)
    return done.returncode, done.stdout, done.stderr.decode("utf-8", "replace")


def check(rvtest, first, name, data):
    """Merges a file with these bytes as the second part."""
    with open(name, "wb") as out:
        out.write(data)
    status, text, told = run(rvtest, first, name)
    with open(first, encoding="ascii") as file:
        other = file.read()
    try:
        wanted = merged(other, data.decode("ascii"))
    except UnicodeDecodeError:
        wanted = None
    if wanted is None:
        if status != 2 or text or not told.startswith(f"rvtest: {name}"):
            sys.exit(f"merge.py: {name}: {data!r}: status {status}, {told}")
        return False
    if status not in (0, 1) or text != wanted.encode():
        sys.exit(f"merge.py: {name}: {data!r}: status {status}, {told}")
    return True


def check_each_byte(rvtest, first, second):
    with open(second, "rb") as file:
        data = file.read()
    if not check(rvtest, first, "whole", data):
        sys.exit("merge.py: a part is refused")
    for end in range(len(data)):
        if check(rvtest, first, "cut", data[:end]):
            sys.exit(f"merge.py: a part cut at byte {end} is taken")
    print(f"a part cut at each of its {len(data)} bytes: refused")
    taken = 0
    for at, byte in enumerate(data):
        for other in {byte ^ 1, byte ^ 32, 48, 10} - {byte}:
            taken += check(rvtest, first, "changed", data[:at] + bytes([other]) + data[at + 1:])
    print(f"a part with each byte changed in turn: taken as another part {taken} times, else refused")


def check_long(rvtest):
    """Two parts of more than 16 MB each."""
    jobs = 58
    signature = "".join(f"{word:08x}\n" for word in range(65_536))

    def row(n):
        return (
            f"job {n} job{n}\nend exit 0\nsteps {n}\nconsole -\nsignature 65536\n{signature}verdict none\n"
        )

    for number in (1, 2):
        numbers = range(number, jobs + 1, 2)
        with open(f"long{number}", "w", encoding="ascii") as out:
            out.write("".join(map(row, numbers)))
            out.write(f"part {len(numbers)} of {jobs} shard {number}/2 stamp long\n")
    size = os.path.getsize("long1")
    if size < 2**24:
        sys.exit(f"merge.py: a long part has {size} bytes")
    status, text, told = run(rvtest, "long2", "long1")
    if status != 0 or text != ("".join(map(row, range(1, jobs + 1))) + f"done {jobs}\n").encode():
        sys.exit(f"merge.py: long parts: status {status}, {told}")
    print(f"two parts of {size} bytes: status 0")


def check_orders(rvtest, report, parts):
    """Merges parts in each order: all give the one report, whose rows miss no expectation."""
    with open(report, "rb") as file:
        wanted = file.read()
    for order in itertools.permutations(parts):
        status, text, told = run(rvtest, *order)
        if status != 0 or text != wanted:
            sys.exit(f"merge.py: {' '.join(order)}: status {status}, {told}")
    print(f"{len(parts)} parts in each order: status 0")


def main():
    rvtest, first, second, report, *parts = sys.argv[1:]
    check_each_byte(rvtest, first, second)
    check_long(rvtest)
    check_orders(rvtest, report, parts)


main()
