"""The forms of rows of reports that were saved: what `show`, `diff`, `merge` and JUnit's XML make of them.

In a report `$1 a` stands for the six lines of job 1, a, which ended by exit 0 after 5 steps, and has no console, no signature and no
verdict; `$1 a, end budget, console 41` for the same with other fields, and a signature's words stand behind their number. `$1-9 j`
are the rows of j1 to j9, and a `<` at the end takes the last line feed away.
"""
import os
import re

from kinds import fault_kinds
from rows import RULES, Form, job_count, last_line, lines, status_of
from tables import raw

FIELDS = {"end": "exit 0", "steps": "5", "console": "-", "signature": "-", "verdict": "none"}
REFUSED = {"image-unreadable", "bad-magic", "segment-map"}


# ---- the texts of reports

def row_text(job):
    """The lines of a row: the job's number and name, and behind commas the fields that are others."""
    job, *others = job.split(", ")
    fields = FIELDS | dict(other.split(" ", 1) for other in others)
    fields["signature"] = fields["signature"].replace(" ", "\n")
    return lines(f"job {job}", *(f"{field} {value}" for field, value in fields.items()))


def rows_text(jobs):
    """The lines of a row, or of the rows of some numbers."""
    numbers = re.fullmatch(r"([0-9]+)-([0-9]+) (\w+)", jobs)
    if numbers is None:
        return row_text(jobs)
    first, last, name = numbers.groups()
    return "".join(row_text(f"{number} {name}{number}") for number in range(int(first), int(last) + 1))


def report_bytes(text):
    """The bytes of a report."""
    whole = "".join(rows_text(line[1:]) if line.startswith("$") else lines(line) for line in text.split("\n"))
    return raw(whole.removesuffix("<\n"))


def jobs_of(report):
    """The numbers and names of the jobs of a report's bytes."""
    return re.findall("^job (.*)$", report.decode(), re.MULTILINE)


# ---- reports that are read

NEXT_JOB = '"job" and the next number, or "done" or "part" at the end'
WANTED = {
    "": NEXT_JOB, "verdict": NEXT_JOB,
    "job": '"end" and how the run ended', "end": '"steps" and a number', "steps": '"console" and hexadecimal digits or -',
    "console": '"signature" and its number of words or -', "signature -": '"verdict" and none, pass or fail',
    "done": "the end of the file", "part": "the end of the file",
}


def wanted_behind(line):
    """What a report has behind a line."""
    return WANTED.get(line) or WANTED.get(line.split(" ")[0]) or 'eight hexadecimal digits or "verdict"'


def shown_value(value):
    """Bytes as a value is shown: those of no character or of a control character as escapes, and at most 80 characters."""
    shown = ""
    for char in value.decode("utf-8", "surrogateescape"):
        is_plain = char >= " " and not "\x7f" <= char <= "\x9f" and not "\udc80" <= char <= "\udcff"
        for piece in [char] if is_plain else [f"\\x{byte:02x}" for byte in char.encode("utf-8", "surrogateescape")]:
            if len(shown) + len(piece) > 80:
                return shown
            shown += piece
    return shown


def check_broken(row):
    """Where a report goes wrong."""
    report = report_bytes(row["report"])
    row.write("report", report)
    if row["wrong"] == "cut off":
        told = ": the report is truncated"
    else:
        line = int(row["wrong"].removeprefix("line "))
        before, met = (b"\n" + report).split(b"\n")[line - 1:line + 1]
        wanted = wanted_behind(before.decode("utf-8", "surrogateescape"))
        told = f':{line}: invalid report line "{shown_value(met)}": expected {wanted}'
    row.wants(["show", "report"], 2, "", f"rvtest: report{told}\n")


def check_read(row):
    """What merging says of a report, and how it differs from that of the same jobs with no field given."""
    report = report_bytes(row["report"])
    row.write("report", report)
    row.write("plain", "".join(row_text(job) for job in jobs_of(report)) + lines(row["report"].split("\n")[-1]))
    wants_merged(row, row["merged"], "report")
    wants_differences(row, ["--steps"], row["differs"], "plain", "report")
    for end in reversed(range(len(report))):
        os.truncate(row.folder / "report", end)
        row.wants(["show", "report"], 2, "", "rvtest: report: the report is truncated\n")
        wants_whole_rows(row, report[:end])


# ---- reports that are cut off

# What stands behind each whole row.
ROW_END = re.compile(rb"^verdict .*\n", re.MULTILINE)


def cut_off_note(path, count):
    """What is told of a report that is cut off behind so many rows."""
    return f"rvtest: {path}: note: the report is truncated; using its {count} complete row{'s' * (count != 1)}\n"


def wants_whole_rows(row, beginning):
    """Of a beginning of a report the whole rows are taken, as those of a choice."""
    ends = [found.end() for found in ROW_END.finditer(beginning)]
    row.write("choice", beginning[:ends[-1] if ends else 0] + f"part {len(ends)} of 4096\n".encode())
    status, shown, _ = row.start(["show", "choice"])
    row.wants(["show", "report", "--partial"], status, shown, cut_off_note("report", len(ends)))


def check_partial(row):
    """What a command takes of a report that may be cut off. A list of the jobs a, b and c is there, and a whole report of them."""
    row.write("list.toml", "".join(f'[[job]]\nname = "{name}"\nimage = "none"\nbudget = 9\n' for name in "abc"))
    row.write("whole", report_bytes("$1 a\n$2 b, verdict fail\n$3 c\ndone 3"))
    row.write("report", report_bytes(row["report"]))
    row.wants(row["words"].split(), int(row["status"]), lines(row["shown"]) if row["shown"] else "", lines(row["told"]) if row["told"] else "")


# ---- what is shown of rows

def report_row(number, name, text):
    """The lines of a row in a report, by how it ended, its verdict and its steps."""
    end, verdict, steps = text.split("/")
    if end in fault_kinds():
        end = f"fault {end} pc=80000088 value=000000ab"
    elif end in REFUSED:
        end = f"refused {end}"
    elif end != "budget":
        end = f"exit {end}"
    return row_text(f"{number} {name}, end {end}, steps {steps}, verdict {verdict}")


def check_saved(row):
    """The line of a row in a report."""
    row.write("report", report_row(1, "uart_rx", row["row"]) + "done 1\n")
    last = last_line(row["told"])
    most = f"  {row['row'].split('/')[2]} uart_rx"
    row.wants(["show", "report", *RULES[row["rule"]][0]], status_of(last), lines(row["told"], last, "most steps:", most))


def check_last(row):
    """The last line of a part with these rows."""
    rows = [report_row(number, f"job{number}", text) for number, text in enumerate(row["rows"].split(), 1)]
    row.write("part", "".join(rows) + f"part {len(rows)} of {len(rows)} shard 1/1 stamp one\n")
    words = ["merge", "part", "--report", "/dev/null", *RULES[row["rule"]][0]]
    row.wants(words, status_of(row["told"]), lines(row["told"]))


def check_summary(row):
    """What is shown of a report."""
    row.write("report", report_bytes(row["report"]))
    row.wants(["show", "report", *RULES[row["rule"]][0]], status_of(row["shown"]), lines(row["shown"]))


# ---- what differs

def check_difference(row):
    """What differs between an old report and a new one."""
    row.write("old", report_bytes(row["old"]))
    row.write("new", report_bytes(row["new"]))
    wants_differences(row, row["words"].split(), row["told"], "old", "new")


def wants_differences(row, words, differences, *reports):
    """Compares reports, which differ in these lines: the status is 1 where a job differs."""
    last = differences.split("\n")[-1]
    row.wants(["diff", *words, *reports], 0 if last.startswith("0 of ") else 1, lines(differences))


# ---- JUnit's XML

# A name, and how it is written in a document.
NAME, WRITTEN = '<"\t', "&lt;&quot;&#9;"


def check_suite(row):
    """The document of a report, behind the name of its suite."""
    row.write(NAME, report_bytes(row["report"]))
    wants_suite(row, NAME, RULES[row["rule"]][0], WRITTEN, row["told"].replace("$", WRITTEN))


def check_escaped(row):
    """What stands for the bytes of a console, which are in hexadecimal digits."""
    row.write("report", report_bytes(f"$1 a, console {row['digits']}\ndone 1"))
    case = f'<testcase classname="report" name="a">\n<system-out>5 steps\n{row["written"]}</system-out>\n</testcase>'
    steps = '<properties>\n<property name="steps.a" value="5"/>\n</properties>'
    wants_suite(row, "report", [], "report", f'tests="1" failures="0" errors="0">\n{steps}\n{case}')


def wants_suite(row, report, words, written, text):
    """Makes the document of a report of this name: beside it goes what is shown without it."""
    begin = lines('<?xml version="1.0" encoding="UTF-8"?>', "<testsuites>") + f'<testsuite name="{written}" '
    end = lines("</testsuite>", "</testsuites>")
    status = 0 if 'failures="0" errors="0"' in text else 1
    _, shown, _ = row.start(["show", report, *words])
    row.wants(["show", report, *words, "--junit", "-"], status, begin + lines(text) + end, shown.decode())


# ---- parts

def check_merged(row):
    """What the parts make that are given."""
    parts = [name for name in ("one", "two", "three") if row[name]]
    for name in parts:
        row.write(name, report_bytes(row[name]))
    wants_merged(row, row["told"], *parts)


def wants_merged(row, wanted, *parts):
    """Merges files to the report of jobs that all pass, or says why there is none."""
    if wanted.startswith("rvtest: "):
        row.wants(["merge", *parts], 2, "", lines(wanted))
        return
    report = report_bytes(wanted)
    count = len(jobs_of(report))
    row.wants(["merge", *parts], 0, report, f"{job_count(count)}: {count} passed, 0 failed, {5 * count} steps\n")


FORMS = {
    "broken": Form(check_broken, "wrong report"),
    "differences": Form(check_difference, "words told old new"),
    "escaped": Form(check_escaped, "written digits"),
    "last": Form(check_last, "told rule rows"),
    "partial": Form(check_partial, "words status shown told report"),
    "merged": Form(check_merged, "told one two three"),
    "read": Form(check_read, "merged differs report"),
    "saved": Form(check_saved, "told rule row"),
    "suites": Form(check_suite, "rule told report"),
    "summaries": Form(check_summary, "rule shown report"),
}
