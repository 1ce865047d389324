"""The kinds of faults, as the table of docs/DEFINITIONS.md names them."""
import functools
import pathlib
import re

PAGE = pathlib.Path(__file__).resolve().parents[2] / "docs" / "DEFINITIONS.md"
HEAD = "| Fault | When | Value |\n|---|---|---|\n"


@functools.cache
def fault_kinds():
    """The names of the table's first column."""
    rows = PAGE.read_text(encoding="utf-8").split(HEAD, 1)[1].split("\n\n", 1)[0]
    return [kind for row in rows.split("\n") for kind in re.findall("`([a-z-]+)`", row.split("|")[1])]
