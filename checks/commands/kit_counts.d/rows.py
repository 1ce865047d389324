"""The cases of rows of lines, beside readelf."""
import collections
import itertools
import pathlib
import re
import subprocess

from counting.lines import Lines, sections_of, sequences_in
from listing.files import Refused
from making import build, counted
from shared import CROSS, call, expect, put


def by_readelf(path):
    """The rows of the tables of lines as readelf tells them: file, line (of code's end nothing), address, whether a statement begins."""
    done = subprocess.run([f"{CROSS}readelf", "-W", "--debug-dump=decodedline", path], capture_output=True, encoding="utf-8", check=True)
    for line in done.stdout.splitlines():
        found = re.fullmatch(r"(\S+) +([0-9]+|-) +(0|0x[0-9a-f]+)((?: +[0-9]+)?)( +x)?\s*", line)
        if found:
            yield found[1], found[2].replace("-", ""), int(found[3], 16), bool(found[5])


def lines():
    """The rows of lines are readelf's, in each version of DWARF, also of code that a source includes."""
    put("both.c", '#include "hand.c"\n#include "codec.c"\n')
    count = 0
    for version, source in itertools.product((2, 3, 4, 5), ("hand", "codec", "both.c")):
        build(source, 0x8000_0060, f"-gdwarf-{version}", "-gno-variable-location-views")
        rows = [row for rows in sequences_in(pathlib.Path("sample.elf").read_bytes()) for row in rows]
        ours = [(pathlib.Path(it.file).name, "" if it.ends else str(it.line), it.address, it.begins and not it.ends) for it in rows]
        expect(f"lines of {source} by DWARF {version}", ours, list(by_readelf("sample.elf")))
        expect(f"files of {source} by DWARF {version}", {it.file for it in rows} <= {"/s/hand.c", "/s/codec.c", "/s/codec.h"}, True)
        count += len(rows)
    packed = build("hand", 0x8000_0060, "-g", "-Wa,--compress-debug-sections=zlib")
    subprocess.run([f"{CROSS}objcopy", "--compress-debug-sections=zlib", "sample.elf", "packed.elf"], check=True)
    expect("packed lines", list(sequences_in(pathlib.Path("packed.elf").read_bytes())), list(sequences_in(packed)))
    return f"{count} rows of lines, by DWARF 2 to 5"


def broken_lines():
    """An image whose headers or lines are changed is read, or refused by name: nothing else happens."""
    ended = collections.Counter()
    for version in (2, 5):
        image = build("hand", 0x8000_0060, f"-gdwarf-{version}")
        table = sections_of(image)[".debug_line"]
        start = image.index(table)
        for at in (*range(32, 52), *range(start, start + len(table), 3)):
            for byte in (0, 0x7f, 0xff):
                try:
                    Lines("hand.elf", image[:at] + bytes([byte]) + image[at + 1:])
                except Refused as refused:
                    expect(f"byte {at} as {byte}", str(refused).startswith("hand.elf: its lines cannot be read: "), True)
                    ended["refused"] += 1
                else:
                    ended["read"] += 1
        path = counted("hand", image[:start] + (99).to_bytes(4, "little") * 2 + image[start + 8:])
        said = call("counts2lcov", path, status=2)
        expect("a version that there is not", said, ("", "counts2lcov: hand.elf: its lines cannot be read: version 99\n"))
    return f"{ended['read']} changed images are read, {ended['refused']} refused"
