"""The forms of rows of terminals, of the line on one and of the colours of results: over a shim (checks/lib/terminal.c), so that the
clock, what a put takes and which streams are terminals are the row's.
"""
import os
import re
import subprocess

import images
from rows import RULES, Form
from tables import raw

# The lines of a job that fails, and the last line.
SHORT = {r"FAIL .*\n(?:     .*\n)+": "FAIL/", r"[0-9]+ jobs?: .*\n": "LAST/"}
# A job that passes, one that fails, and one that expects nothing and exits by 5.
JOBS = {"+": "image = 'zero.elf'", "-": "image = 'five.elf', expect_exit = 6", "5": "image = 'five.elf'"}


def shortened(data):
    """Bytes with the short forms of lines."""
    for form, short in SHORT.items():
        data = re.sub(form.encode(), short.encode(), data)
    return data


def check_progress(row):
    """What comes on both streams of jobs that one worker runs."""
    rule, jobs, wanted = row["rule"], row["jobs"], raw(row["shown"])
    row.write("zero.elf", images.image("code 00000513 X"))
    row.write("five.elf", images.image("one"))
    tables = (f"{{name = 'j{at}', budget = 9, {JOBS[word]}}}" for at, word in enumerate(jobs.split()))
    row.write("list.toml", f"job = [{', '.join(tables)}]\n")
    streams = {"results": "1", "line": "2"}
    given = {
        "LD_PRELOAD": os.environ["TERMINAL_SHIM"], "CLOCK_STEP": row["step"], "MOST_PUT": row["put"], "TERM": "xterm",
        "TERMINALS": "".join(streams[word] for word in row["terminals"].split()),
    }
    words = ["run", "list.toml", "--workers", "1", "--color", row["colors"], *RULES[rule][0]]
    done = subprocess.run(
        [row.rvtest, *words], cwd=row.folder, env={**os.environ, **given}, stdin=subprocess.DEVNULL,
        stdout=subprocess.PIPE, stderr=subprocess.STDOUT, check=False,
    )
    failed = "-" in jobs or (rule == "strict" and "5" in jobs)
    found = done.returncode, shortened(done.stdout), b""
    if found != (int(failed), wanted, b""):
        row.fails(words, (int(failed), wanted, b""), found)


def report_of(jobs):
    """A report of jobs, each by its name, its end and its verdict."""
    rows = (
        f"job {at} {name}\nend {end}\nsteps 2\nconsole -\nsignature -\nverdict {verdict}\n"
        for at, (name, end, verdict) in enumerate(jobs, 1)
    )
    return "".join(rows) + f"done {len(jobs)}\n"


def check_colors(row):
    """What comes on standard output, and the status: of a list with a job that passes and one that fails, of another with a job whose
    console differs and one without an image, and of reports."""
    row.write("zero.elf", images.image("code 00000513 X"))
    row.write("five.elf", images.image("one"))
    row.write("print.elf", images.image("code 100002b7 05000313 0062a023 X"))
    row.write("list.toml", f"job = [{{name = 'good', budget = 9, {JOBS['+']}}}, {{name = 'bad', budget = 9, {JOBS['-']}}}]\n")
    row.write("other.toml", "job = [{name = 'p', budget = 9, image = 'print.elf', expect_console = 'F'}, "
              "{name = 'q', budget = 9, image = 'none.elf'}]\n")
    row.write("old", report_of([("good", "exit 0", "pass"), ("bad", "exit 5", "fail")]))
    row.write("new", report_of([("bad", "exit 5", "fail"), ("more", "exit 0", "pass")]))
    given = {name: value for name, value in os.environ.items() if name != "NO_COLOR"}
    if row["no_color"] != "unset":
        given["NO_COLOR"] = row["no_color"]
    if row["room"] != "all":
        given["OUT_ROOM"] = row["room"]
    given |= {"LD_PRELOAD": os.environ["TERMINAL_SHIM"], "CLOCK_STEP": "0", "MOST_PUT": row["put"], "TERMINALS": row["terminals"]}
    given["TERM"] = row["term"] or "xterm"
    words = row["words"].split()
    done = subprocess.run(
        [row.rvtest, *words], cwd=row.folder, env=given, stdin=subprocess.DEVNULL, stdout=subprocess.PIPE,
        stderr=subprocess.DEVNULL, check=False,
    )
    wanted, found = (int(row["status"]), raw(row["shown"]), b""), (done.returncode, done.stdout, b"")
    if found != wanted:
        row.fails(words, wanted, found)


FORMS = {
    "colors": Form(check_colors, "words terminals no_color term put room status shown"),
    "progress": Form(check_progress, "step rule terminals put jobs colors shown"),
}
