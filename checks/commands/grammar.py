#!/usr/bin/env python3
"""checks/commands/grammar.py: whether tables are read as checks/tables/README.md says, of its own example and of each sign; and whether files
that are no files of tables are refused with their line and the reason.
"""
import pathlib
import re
import sys
import tempfile

TOP = pathlib.Path(__file__).resolve().parents[2]
sys.path.insert(0, str(TOP / "checks/lib"))
import tables  # noqa: E402

EXAMPLE = [
    {"list": "job = [{ name = 'a', image = 'b', budget = 0 }]", "keys": "image = 'b', budget = 0", "told": "job 1: budget"},
    {"list": "job = [{ name = 'a', image = '', x = 1 }]", "keys": "image = '', x = 1", "told": "job 1: image"},
]
CELLS = {
    " a b ": "a b", "": "", "a / b": "a\nb", "a / b /": "a\nb\n", "/ a": "\na", "a / / b": "a\n\nb", "/": "\n", "a/b /c": "a/b /c",
    "a /   b": "a\n  b", "<20>a<7c>": " a|", "<2f> b": "/ b", "<c3a9>": "é", "<e2><82>": "\udce2\udc82", "<C3> <a> <abc>": "<C3> <a> <abc>",
    "3*(a)": "aaa", "3*(a#,)": "a0,a1,a2,", "2*(a / )": "a\na\n", "2<2a>(a)": "2*(a)", "2*(<ff>)": "\udcff\udcff",
}
TABLE = "Of.\n\n# T.\none: x\ntwo | label\n-----------\n"
ROWS = {
    TABLE + "a | b\n    c": [{"one": "x", "two": "a", "label": "b c"}],
    TABLE + "a": [{"one": "x", "two": "a", "label": ""}],
    TABLE + "|": [{"one": "x", "two": "", "label": ""}],
    TABLE.replace("one: x", "one:\n    x $two | / y\n     z") + "a": [{"one": "x a | / y\n z\n", "two": "a", "label": ""}],
    TABLE.replace("one: x", "three: $two\none: <$three>") + "a": [{"three": "a", "one": "<a>", "two": "a", "label": ""}],
    TABLE.replace("one: x", "one | three: x | y\none | three: z") + "a": [
        {"one": "x", "three": "y", "two": "a", "label": ""}, {"one": "z", "three": "", "two": "a", "label": ""},
    ],
}
REFUSED = {
    "Of.\n\none: x\ntwo\n---\na\n": "3: a table has a title",
    "Of.\n\n# T.\ntwo\na\n": "3: a table has a title",
    TABLE + "a | b | c\n": "7: 3 cells, of columns there are 2",
    TABLE.replace("one: x", "one") + "a\n": "4: no setting",
    TABLE.replace("one: x", "one: $five") + "a\n": "7: a setting names $five",
    TABLE.replace("one: x", "four: x") + "a\n": "5: no column of this file: four",
    TABLE.replace("two |", "tow |") + "a\n": "5: no column of this file: tow",
    TABLE.replace("one: x", "one: x\none: y\nthree: x\nthree: y") + "a\n": "4: only settings of the same names stand several times",
}


def rows_of(text):
    """The cells of a file's rows, of columns one, two and three."""
    with tempfile.TemporaryDirectory() as folder:
        path = pathlib.Path(folder) / "table.txt"
        path.write_text(text, encoding="utf-8")
        return [ask for row in tables.rows_of_file(path, ["one", "two", "three", "list", "keys", "told"]) for ask in row.asks]


def refusal_of(text):
    """Why a file is refused, or that it is not."""
    try:
        rows_of(text)
    except tables.Malformed as malformed:
        return str(malformed).partition("table.txt:")[2]
    return "it is taken"


def main():
    page = (TOP / "checks/tables/README.md").read_text(encoding="utf-8")
    example = "\n".join(line[4:] for line in re.search(r"\n(    .*\n(?:    .*\n|\n)*)", page)[1].strip("\n").split("\n"))
    cases = [("the example of the page", EXAMPLE, rows_of(example))]
    cases += [(f"the cell '{text}'", wanted, tables.cell(text)) for text, wanted in CELLS.items()]
    cases += [(f"the table '{text}'", wanted, rows_of(text)) for text, wanted in ROWS.items()]
    cases += [(f"the file '{text}'", wanted, refusal_of(text)[:len(wanted)]) for text, wanted in REFUSED.items()]
    wrong = [f"{name}: {found!r}, expected {wanted!r}" for name, wanted, found in cases if wanted != found]
    if wrong:
        sys.exit("\n".join(f"checks/commands/grammar.py: {one}" for one in wrong))
    for name, _, _ in cases:
        print(name.replace("\n", " / "))


main()
