"""The forms of rows of paths: where a report is put, and where the files of a list are read.

What is there stands in words: `report=old` is a file with a text, `last>report` a link, `more&report` a hard link, `far/` a folder,
`!report` nothing, and `~null` what is neither file nor folder. What stands behind `%` nobody may write, behind `^` nobody may read or
write. The text `new` is that of the run's report.
"""
import os

import images
from rows import Form, lines
from saved import report_bytes
from tables import raw

REPORT = report_bytes("$1 a, steps 2\ndone 1")
SHOWN = "1 job: 1 passed, 0 failed, 2 steps"


def text_of(word):
    """The bytes of a file by their word."""
    return REPORT if word == "new" else raw(word)


def put_there(folder, word):
    """Makes what a word says."""
    if word[0] in "%^":
        put_there(folder, word[1:])
        (folder / word[1:].partition("=")[0]).chmod(0 if word[0] == "^" else 0o555)
    elif ">" in word:
        link, target = word.split(">")
        (folder / link).symlink_to(target)
    elif "&" in word:
        link, target = word.split("&")
        (folder / link).hardlink_to(folder / target)
    elif "=" in word:
        name, text = word.split("=")
        (folder / name).write_bytes(text_of(text))
    else:
        (folder / word).mkdir()


def is_there(folder, word):
    """Whether what a word says is there."""
    path = folder / word.lstrip("!~").partition("=")[0].partition(">")[0]
    if word.startswith("!"):
        return not os.path.lexists(path)
    if word.startswith("~"):
        return path.exists() and not path.is_file() and not path.is_dir()
    if ">" in word:
        return path.is_symlink() and os.readlink(path) == word.partition(">")[2]
    if "=" in word:
        return not path.is_symlink() and path.is_file() and path.read_bytes() == text_of(word.partition("=")[2])
    return not path.is_symlink() and path.is_dir()


def check_place(row):
    """What is told of a report's path or how the run ends, by what is there, and what is there then."""
    path, told = row["path"], row["told"]
    row.write("list.toml", "job = [{name = 'a', image = 'a.elf', budget = 9}]\n")
    row.write("a.elf", images.image("code 00000513 X"))
    for word in row["there"].split():
        put_there(row.folder, word)
    words = ["run", "list.toml", "--quiet", "--report", path]
    if told == "done":
        row.wants(words, 0, lines(SHOWN))
    elif told == "full":
        # Standard output is full: the report is not put in its place.
        status, said = row.run_onto_full_disk(words)
        row.assertEqual(3, status, said)
    else:
        # A run ends where its report's file takes no more, so its last line is not shown.
        row.wants(words, 3, "", lines(f"rvtest: {path}: {told}"))
    for word in row["then"].split():
        row.assertTrue(is_there(row.folder, word), f"not true after the run: {word}")


# Images that exit by codes 0 and 5.
ENDS = {"one": "code 00000513 X", "two": "one"}


MISSING = "rvtest: note: no image was found: relative paths are resolved against {}\n"
HERE = "the current directory; use --root DIR to resolve them against DIR"


def check_root(row):
    """Which image is at a path, taken from a folder where one is given, or why none is read."""
    folder, path, told = row["root"], row["path"], row["told"]
    row.write("list.toml", f"job = [{{name = 'a', image = '{path}', budget = 9}}]\n")
    (row.folder / "shelf").mkdir()
    row.write("kept", images.image(ENDS["one"]))
    row.write("shelf/kept", images.image(ENDS["two"]))
    words = ["run", "list.toml", "--verbose", *(["--root", folder] if folder else [])]
    wanted = {"one": "PASS a: exit 0 after 2 steps", "two": "FAIL a: exit 5 after 2 steps"}
    status, out, said = row.start(words)
    line = out.decode().partition("\n")[0]
    is_told = line == wanted.get(told) or (line.startswith("FAIL a: refused image-unreadable: ") and line.endswith(f": {told}"))
    note = MISSING.format(f"{folder} (--root)" if folder else HERE) if told == "No such file or directory" and not path.startswith("/") else ""
    if (status, said) != (int(told != "one"), note.encode()) or not is_told:
        row.fails(words, (int(told != "one"), told.encode(), note.encode()), (status, out, said))


# ---- files that are read

LIST = """job = [
    {name = 'a', image = 'a.elf', budget = 9, expect_console_file = 'g.out'},
    {name = 'b', image = 'b.elf', budget = 9},
]
"""
# With the status of each.
MADE = {
    "run list.toml --report r --counts c": 0,
    "run list.toml --shard 1/2 --stamp s --report p1": 0,
    "run list.toml --shard 2/2 --stamp s --report p2": 0,
    "run red.toml --report f": 1,
}


def everything_in(folder):
    """What is in a folder: each link's target, and each file's bytes."""
    return {path: os.readlink(path) if path.is_symlink() else path.read_bytes() if path.is_file() else None for path in folder.rglob("*")}


def check_overwrite(row):
    """What is told of files that a command writes and reads; if they are refused, each is as it was."""
    row.write("list.toml", LIST)
    row.write("red.toml", LIST.replace("budget = 9", "budget = 9, expect_exit = 5"))
    for name in ("a.elf", "b.elf"):
        row.write(name, images.image("code 00000513 X"))
    row.write("g.out", "")
    row.write("k", "")
    for words, status in MADE.items():
        row.assertEqual(status, row.start(words.split())[0], f"the status of {words}")
    for word in row["there"].split():
        put_there(row.folder, word)
    words, before = row["words"].split(), everything_in(row.folder)
    status, out, said = row.start(words)
    wanted = (2, b"", raw(f"rvtest: {row['told']}\n")) if row["told"] else (0, out, b"")
    if wanted != (status, out, said):
        row.fails(words, wanted, (status, out, said))
    if row["told"] and before != everything_in(row.folder):
        row.fail(f"{' '.join(words)} changed a file that it refused to write")


FORMS = {
    "overwrites": Form(check_overwrite, "there words told"),
    "outputs": Form(check_place, "there path told then"),
    "roots": Form(check_root, "root path told"),
}
