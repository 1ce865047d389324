"""The form of rows of `accept`: what is told of a list's jobs, and which files are there then.

Jobs stand in lines: a name, how its run ends with its console and the words of its signature, as in unmet.txt, and behind a colon
the job's other keys between semicolons. In consoles and files `_` is a line feed. `list` is the list's text in place of one that is
made of them. Each row runs with --check first, which changes no file, and in the end once more, which changes nothing.
"""
import difflib
import os

import images
from placed import is_there, put_there
from rows import Form, lines, lines_in
from told import write_run

STEPS = 9999
# How many a job may take that fills the console.
MOST_STEPS = 999_999


def fed(text):
    """A text with its line feeds."""
    return text.replace("_", "\n")


def words_in(cell):
    return [fed(word) for word in cell.split(" ") if word]


def table_of(row, line):
    """Makes the image of a job, and gives the table of its line."""
    head, _, keys = line.partition(":")
    name, _, run = head.partition(" ")
    made = write_run(row, f"{name}.elf", fed(run))[0].split(", ", 1)
    steps = STEPS if len(run) < images.LONG else MOST_STEPS
    told = [f"name = '{name}'", made[0], f"budget = {steps}", *made[1:], *filter(None, keys.strip().split("; "))]
    return lines("[[job]]", *told)


def files_in(folder):
    """All that is in a folder: of a file its bytes, of a link where it leads."""
    def content(path):
        if path.is_symlink():
            return str(path.readlink())
        return path.read_bytes() if path.is_file() and os.access(path, os.R_OK) else None
    return {path.relative_to(folder): content(path) for path in folder.rglob("*")}


def new_lines(before, after):
    """The lines of a text that the one before it has not."""
    pairs = difflib.ndiff(before.split("\n"), after.split("\n"))
    return [line[2:] for line in pairs if line.startswith("+ ")]


def count_of(text, beginnings):
    return sum(line[:2] in beginnings for line in lines_in(text))


def file_count(told):
    """How many files are told to change: each golden file, and the list."""
    changed = [line.split(":")[0][2:] for line in lines_in(told) if line[:2] in ("~ ", "+ ")]
    return len(set(changed))


def last_line(told, is_check):
    """The line that counts files."""
    files = file_count(told)
    word = "would be written" if is_check else "written"
    return f"{files} file{'s' * (files != 1)} {word}, {sum(line.startswith('skipped ') for line in lines_in(told))} skipped"


def left_of(told):
    return "".join(lines(line) for line in lines_in(told) if line.startswith("skipped "))


def check_accepted(row):
    """What `accept` tells, its status, and what is there then."""
    tables = "".join(table_of(row, line) for line in lines_in(row["jobs"]))
    row.write("list.toml", row["list"] or tables)
    for word in words_in(row["there"]):
        put_there(row.folder, word)
    words, told = ["accept", "list.toml", *row["words"].split()], row["told"]
    status, before = int(row["status"] or 0), files_in(row.folder)
    body, said = (lines(row[key]) if row[key] else "" for key in ("told", "said"))
    if status > 1:
        if not told:
            row.wants([*words, "--check"], status, body, said)
        row.wants(words, status, body, said)
    else:
        in_check = int(bool(told))
        row.wants([*words, "--check"], in_check, body + lines(last_line(told, True)), said)
        if files_in(row.folder) != before:
            row.fail("--check changed a file")
        row.wants(words, status, body + lines(last_line(told, False)), said)
        row.wants(words, status, left_of(told) + lines(last_line(left_of(told), False)), said)
    check_files(row, before)


def check_files(row, before):
    """What is there then: files by their words, and the list with no other lines than these."""
    for word in words_in(row["then"]):
        if not is_there(row.folder, word):
            row.fail(f"not true after the call: {word}")
    left = [path for path in files_in(row.folder) if path not in before and str(path).endswith(".new")]
    row.assertEqual([], left, "files that were left behind")
    old, new = before[row.folder.joinpath("list.toml").relative_to(row.folder)], (row.folder / "list.toml").read_bytes()
    row.assertEqual(lines_in(row["lines"]), new_lines(old.decode(), new.decode()), "the new lines of the list")


FORMS = {"accepted": Form(check_accepted, "jobs list there words status told said then lines")}
