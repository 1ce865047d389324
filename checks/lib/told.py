"""The forms of rows of lists and jobs: what rvtest tells of jobs that ran, are refused or are explained, of lists that are wrong, and
how it shows bytes.
"""
import os
import re

import images
from rows import RULES, Form, last_line, lines, lines_in, squeezed, status_of, told_lines
from tables import raw

UNEXPECTED = "expected: exit 0, since no expectation is set"


# ---- the files that rows name

FILES = {
    "words": lambda path: path.write_bytes(b"0000000a\n"),
    "second": lambda path: path.write_bytes(b"80000000\n00000000\n"),
    "three": lambda path: path.write_bytes(b"80000000\nffffffff\n00000000\n"),
    "text": lambda path: path.write_bytes(b"ab"),
    # One byte more than is taken.
    "long": lambda path: (path.touch(), os.truncate(path, 2**24 + 1)),
    "folder": lambda path: path.mkdir(),
    "secret": lambda path: path.touch(0),
    "a/b": lambda path: path.parent.touch(),
    # A link to itself, one to a name that is too long, and one to a file that is opened and gives no byte.
    "loop": lambda path: path.symlink_to("loop"),
    "name": lambda path: path.symlink_to(300 * "n"),
    "failed": lambda path: path.symlink_to("/proc/self/mem"),
}
# An image that is told by words, and not by a path.
IMAGE = re.compile(r"image = '((?:one|two|sign|code|[0-9a-f]{4,8})\b[^']*)'")


def write_list(row, *jobs):
    """Makes the list of jobs with these keys, and the files that they name."""
    tables = ", ".join("{" + with_files(row, keys) + "}" for keys in jobs)
    row.write("list.toml", f"job = [{tables}]\n")


def with_files(row, keys):
    """Makes the files that keys name, and gives the keys with paths in place of what images have."""
    for path, make in FILES.items():
        if f"'{path}'" in keys and not os.path.lexists(row.folder / path):
            make(row.folder / path)

    def made(words):
        name = f"image{len(list(row.folder.iterdir()))}.elf"
        row.write(name, images.image(words[1]))
        return f"image = '{name}'"

    return IMAGE.sub(made, keys)


# ---- jobs

def wants_run(row, words, out, last="", shape=bytes):
    """Runs a list, of which so much is shown and then the last line: the one that goes with the first, where none is given."""
    last = last or last_line(out)
    row.wants(["run", "list.toml", *words], status_of(last), out + lines(last), shape=shape)


DETAILS = {"some": [], "all": ["--verbose"], "quiet": ["--quiet"]}


def write_second(row, keys):
    """Makes a list of two jobs, of which the second has the keys, and gives its name."""
    name = re.search(r"\bname = '(\w+)'", keys)
    front = "" if name else "name = 'b', "
    front += "" if "budget = " in keys else f"budget = {images.BUDGET}, "
    write_list(row, "name = 'a', image = 'one', budget = 9", front + keys)
    return name[1] if name else "b"


def check_output(row):
    """What `run` reports about the second of two jobs, in this detail and by this rule."""
    name = write_second(row, row["keys"])
    out = told_lines(*lines_in(row["output"])) if row["output"] else ""
    for words in RULES[row["rule"]]:
        wants_run(row, ["--only", name, *DETAILS[row["detail"]], *words], out, row["last_line"])


def check_explained(row):
    """What a command shows of so many instructions of the second of two jobs."""
    write_second(row, row["keys"])
    out = lines(*lines_in(row["told"]))
    if row["command"] == "explain":
        row.wants(["explain", "list.toml", "b", "--last", row["last"]], status_of(last_line(out)), out, shape=squeezed)
    else:
        wants_run(row, ["--only", "b", "--last", row["last"]], out, row["last_line"], shape=squeezed)


def check_whole(row):
    """A list, words and what goes out, as they stand."""
    row.write("list.toml", row["list"])
    row.write("kept.elf", images.image("one"))
    row.write("main.elf", images.image("800000b7 01002503 @ main=80000000/02/0001"))
    (row.folder / "shelf").mkdir()
    row.wants(row["words"].split(), int(row["status"]), row["told"])


def check_reason(row):
    """Why the image of a list's only job is refused."""
    write_list(row, f"name = 'a', image = '{row['image']}', budget = 9, {row['keys']}")
    told = f'list.toml:1: error: job 1 "a": refused {row["refusal"]}: {row["told"]}'
    row.wants(["check", "list.toml"], 2, lines(told, "1 job, 1 refused"))


def check_fault(row):
    """What is told of a list, behind a front where a line has none of its own, or nothing of a good one."""
    name = row["file"] or "f.toml"
    row.write(name, row["list"])
    if not row["told"]:
        row.write("i", images.image("one"))
        row.wants(["check", name], 0, "1 job, none refused\n")
        return
    told = lines(*(with_front(row["front"], line) for line in lines_in(row["told"])))
    row.wants(["check", name], 2, told)
    first = lines(with_front(row["front"], row["run"] or lines_in(row["told"])[0]))
    first = re.sub(r"^(.*?:[0-9]+):[0-9]+(: error: job )", r"\1\2", first)
    row.wants(["run", name], 2, "", first)
    row.wants(["run", name, "--report", "r"], 2, "", first)


def with_front(front, line):
    """A line behind a front, which it may have of its own."""
    return line if not front or line.startswith("f.toml:") else f"{front} {line}"


# ---- bytes

def wants_console(row, console, keys, *behind):
    """Runs a job that puts these bytes to the console, exits by code 0 and fails, with these lines behind its own, which is given."""
    code, end = images.run_of(console, "0")
    row.write("image.elf", images.program(code))
    row.write("list.toml", f"job = [{{name = 'b', image = 'image.elf', budget = 9999, {keys}}}]")
    line = f"FAIL b: {end}"
    wants_run(row, [], told_lines(line, *behind))
    return line


def check_shown(row):
    """What bytes, in hexadecimal digits, are shown as."""
    data, text = bytes.fromhex(row["digits"]), row["shown"]
    if b"\n" not in data:
        wants_console(row, data + b"\n", "expect_exit = 1", "expected: exit 1", f"| {text}")
    if data:
        code = images.numbers("00000013 01002503")
        row.write("image.elf", images.with_symbols(images.program(code), [(data, images.BASE, 2, 1)]))
        write_list(row, "name = 'a', image = 'image.elf', budget = 9")
        end = f"fault load-access at 80000004 ({text}+0x4), value 00000010, after 1 step"
        wants_run(row, [], told_lines(f"FAIL a: {end}", UNEXPECTED))


def check_value(row):
    """What is shown of the value that a file says is expected."""
    row.write("f", row["value"])
    told = f'console differs from f at byte 0: expected "{row["shown"]}", found "\\xfe"'
    wants_console(row, b"\xfe", "expect_console_file = 'f'", told, "| \\xfe")


def check_console(row):
    """The lines that are shown of the end of a console, and the whole of it by `console`, beside the job's line."""
    console = raw(row["console"])
    line = wants_console(row, console, "expect_exit = 1", "expected: exit 1", *lines_in(row["shown"]))
    row.wants(["console", "list.toml", "b"], 1, console, lines(line))


def tail_of(console):
    """The lines that are shown of a console: its last, with digits for what cannot be printed."""
    text = console[-1024:].decode("utf-8", "backslashreplace")
    shown = re.sub(r"[\x00-\x09\x0b-\x1f]", lambda control: f"\\x{ord(control[0]):02x}", text)
    return [f"| {line}" for line in shown.removesuffix("\n").split("\n")[-10:]] if shown else []


def check_compared(row):
    """The lines that are told where a console differs from the text of a file."""
    console = raw(row["console"])
    row.write("f", row["file"])
    wants_console(row, console, "expect_console_file = 'f'", *lines_in(row["told"]), *tail_of(console))


# ---- expectations

def write_run(row, path, text):
    """Makes the image of a run, and gives its keys, what its line says and its console."""
    end, console, signature = text.split(" ")
    if end == "refused":
        FILES["long"](row.folder / "long")
        return "image = 'long'", "refused image-too-long: long: the file is larger than 16777216 bytes", ""
    console = console.replace(".", "")
    code, told = images.run_of(raw(console), end)
    words = [] if signature in ("-", ".") else [int(word) for word in signature.split(",")]
    row.write(path, images.with_signature(code, words))
    return f"image = '{path}'" + ("" if signature == "-" else ", signature = ['x', 'y']"), told, console


def shown_expectation(text):
    """An unmet expectation as its line shows it: a difference says what is expected by itself."""
    return text if text.startswith(("console differs", "signature differs")) else f"expected: {text}"


def check_unmet(row):
    """Which expectations the second of three jobs does not meet."""
    named = write_run(row, "a.elf", row["first"])[0] if row["first"] else "image = 'one'"
    made, told, console = write_run(row, "b.elf", row["run"])
    if "signature = [" in row["keys"]:
        made = made.partition(",")[0]
    write_list(
        row,
        f"name = 'a', budget = {images.BUDGET}, {named}",
        f"name = 'b', budget = {images.BUDGET}, {made}, {row['keys']}",
        "name = 'c', budget = 9, image = 'one', expect_exit = 77",
    )
    if row["file"]:
        row.write("f", row["file"].replace(".", ""))
    if row["expected"]:
        out = told_lines(f"FAIL b: {told}", *map(shown_expectation, lines_in(row["expected"])), *tail_of(raw(console)))
    else:
        out = lines(f"{'FAIL' if told.startswith('refused') else 'PASS'} b: {told}")
    wants_run(row, ["--verbose", "--only", "b"], out)


FORMS = {
    "refused": Form(check_output, "detail rule keys output last_line"),
    "run": Form(check_output, "detail rule keys output last_line"),
    "explained": Form(check_explained, "command last keys told last_line"),
    "whole": Form(check_whole, "words list status told"),
    "reasons": Form(check_reason, "told keys image refusal"),
    "faults": Form(check_fault, "file front list told run"),
    "shown": Form(check_shown, "digits shown"),
    "values": Form(check_value, "value shown"),
    "consoles": Form(check_console, "console shown"),
    "compared": Form(check_compared, "console file told"),
    "unmet": Form(check_unmet, "expected keys run file first"),
}
