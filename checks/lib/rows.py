"""What the forms of rows share: a row as a test case with its folder, the run that it asks for, and lines of what is told."""
import dataclasses
import os
import pathlib
import re
import shlex
import shutil
import subprocess
import unittest

from outcomes import outcome, short, unequal
from tables import raw

# The user whom file modes bind: another one, where this is root.
USER = {"user": 65534, "group": 65534, "extra_groups": []} if os.getuid() == 0 else {}

RULES = {"strict": [[]], "lenient": [["--lenient"]], "both": [[], ["--lenient"]]}


@dataclasses.dataclass
class Form:
    """How the rows of a file are checked, and the names of their columns."""
    check: callable
    columns: str


@dataclasses.dataclass(eq=False)
class Row(unittest.TestCase):
    """A row of a table as a test case: its number in the file, its line's number and text, and its cells, for each time that it is asked."""
    form: Form
    table: str
    title: str
    number: int
    line: int
    text: str
    asks: list
    rvtest: str
    folder: pathlib.Path

    def __post_init__(self):
        super().__init__()

    # ---- what unittest calls; the id selects the row on the command line

    def id(self):
        return f"{self.table}:{self.number}"

    def __str__(self):
        return f"checks/tables/{self.table}.txt:{self.line}"

    def shortDescription(self):
        return f"{short(self.title)}\n  row: {short(self.text)}"

    def setUp(self):
        self.folder.mkdir()
        self.addCleanup(shutil.rmtree, self.folder, ignore_errors=True)

    def runTest(self):
        self.form.check(self)

    def assertMultiLineEqual(self, first, second, msg=None):
        """Compares an expected and an actual text. The difference that unittest would show takes minutes for long ones."""
        if first != second:
            self.fail(unequal(msg or "a text", first, second))

    # ---- what forms call

    def __getitem__(self, column):
        """The cell of a column, which is empty where the table has none of the name."""
        return self.asks[0].get(column, "")

    def write(self, name, data):
        """Makes a file."""
        (self.folder / name).write_bytes(as_bytes(data))

    def start(self, words, out=subprocess.PIPE):
        """Runs the program: its status, its output where that is not a file, and what it says beside that."""
        # To become another user takes longer than most runs, so that is done beside the file that nobody may read alone.
        user = USER if (self.folder / "secret").exists() else {}
        done = subprocess.run(
            [self.rvtest, *words], cwd=self.folder, stdin=subprocess.DEVNULL, stdout=out, stderr=subprocess.PIPE, check=False, **user
        )
        return done.returncode, done.stdout, done.stderr

    def run_onto_full_disk(self, words):
        """Runs the program with a standard output that takes no byte: its status, and what it says beside that."""
        with open("/dev/full", "wb") as full:
            status, _, said = self.start(words, full)
        return status, said

    def wants(self, words, status, out, errors="", shape=bytes):
        """Runs the program, and compares its output in a shape, what it says beside that, and its status."""
        ended, shown, said = self.start(words)
        found = ended, shape(shown), said
        wanted = status, as_bytes(out), as_bytes(errors)
        if found != wanted:
            self.fails(words, wanted, found)

    def fails(self, words, wanted, found):
        """Fails with the expected and the actual status, output and errors of a run."""
        command = shlex.join([os.path.basename(self.rvtest), *words])
        self.fail(unequal(f"ran: {short(command)}", outcome(*wanted), outcome(*found)))


def as_bytes(data):
    """Bytes as they are, and those of a text."""
    return data if isinstance(data, bytes) else raw(data)


# ---- lines

LINE = re.compile(r"(PASS|FAIL) \S+: (exit|fault|budget|refused)(?: (\S+).*?)?(?: after ([0-9]+) steps?)?")
# What did not match, by the beginning of the line for the first expectation that is not met. For all others it is how the job ended.
UNMATCHED = {"console differs": "console", "signature differs": "signature", "expected: the same result as ": "same_as"}


def last_line(out):
    """The last line of a run of one job, by what is told of that job."""
    line, _, others = out.partition("\n")
    found = LINE.fullmatch(line)
    if found is None:
        raise ValueError(f"no line of a job: {line}")
    word, end, kind, steps = found.groups()
    passed = word == "PASS"
    what = kind if end == "fault" else end
    for front, unmatched in UNMATCHED.items():
        if others.lstrip().startswith(front):
            what = unmatched
    way = "" if passed else f" (1 {what})"
    return f"1 job: {int(passed)} passed, {int(not passed)} failed{way}, {step_count(int(steps or 0))}"


def job_count(count):
    """So many jobs, as a last line begins."""
    return f"{count} job" if count == 1 else f"{count} jobs"


def step_count(count):
    """So many steps, as a last line has them."""
    return f"{count} step" if count == 1 else f"{count} steps"


def status_of(last):
    """The status that goes with a last line."""
    return 0 if " 0 failed" in last else 1


def lines(*texts):
    """Texts as lines."""
    return "".join(f"{text}\n" for text in texts)


def lines_in(text):
    """The lines of a cell, of which an empty one has none."""
    return text.split("\n") if text else []


def told_lines(first, *others):
    """The line of a job, and behind five spaces what stands behind it."""
    return lines(first, *(f"     {other}" for other in others))


def squeezed(out):
    """Without the lines of registers that have no symbol, and with one space between words."""
    kept = [line for line in out.split(b"\n") if not re.fullmatch(rb"     \w{2,4} +[0-9a-f]{8}", line)]
    return b"\n".join(b" ".join(line.split()) for line in kept)
