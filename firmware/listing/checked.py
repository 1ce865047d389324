"""Asks rvtest what is wrong with a list, and finds the file beside a test that each error comes from."""
import os
import re
import subprocess
import tempfile

from .files import shown

# FILE:LINE: or FILE:LINE:COLUMN: and then the job, as rvtest writes it.
ERROR = re.compile(r'(?P<line>\d+):(?:(?P<column>\d+):)? (?:error: )?(?:job [^:]*: )?(?P<what>.*)', re.S)


def faults_of(rvtest, jobs):
    """What rvtest finds wrong: for each error its text, and the names of the jobs that it holds for. Those jobs are left out of the next try.

    JOBS are lines by name. An error in defaults.keys holds for every job that has the key from there.
    """
    left = dict(jobs)
    while left:
        names, text = list(left), ""
        with tempfile.NamedTemporaryFile("w", suffix=".toml", encoding="utf-8") as file:
            file.write("".join("\n".join(left[name]) + "\n" for name in names))
            file.flush()
            text = error_of(rvtest, file.name)
        found = text and place_of(text, left)
        if not found:
            return
        what, name, lines = found
        shared = [it for it in names if lines is not None and any(is_same(lines, other) for other in left[it])] or [name]
        yield what, shared
        for it in shared:
            del left[it]


def error_of(rvtest, path):
    """What rvtest says of a list behind its name, or nothing if it takes it, or cannot be run."""
    try:
        done = subprocess.run([*rvtest, "list", path], stdin=subprocess.DEVNULL, capture_output=True, check=False)
    except OSError:
        return ""
    said = done.stderr.decode("utf-8", "surrogateescape")
    start = re.search(rf"^{re.escape(path)}:", said, re.M)
    return said[start.end():] if done.returncode == 2 and start else ""


def place_of(text, jobs):
    """The error with the file and line that it is about, the job, and its lines of the key, if the error names one."""
    found = ERROR.match(text)
    if not found:
        return None
    number, what = int(found["line"]), found["what"].rstrip("\n")
    for name, lines in jobs.items():
        count = sum(it.count("\n") + 1 for it in lines)
        if number <= count:
            about = key_of(lines, what) or line_of(lines, number)
            where = f"{shown(about.path)}:{about.line}" if about is not None else f'job "{name}"'
            return f"{where}: error: {what}", name, about
        number -= count
    return None


def key_of(lines, what):
    """The lines of the key that an error names."""
    keyed = [(re.match(r'\s*(?:#.*\n\s*)*"?([A-Za-z0-9_-]+)"?', it), it) for it in lines if getattr(it, "path", None)]
    named = re.findall(r"[A-Za-z0-9_-]+", what)
    return next((it for word in named for key, it in keyed if key and key[1] == word), None)


def line_of(lines, number):
    """The lines of a key that a line of the list belongs to."""
    for it in lines:
        count = it.count("\n") + 1
        if number <= count:
            return it if getattr(it, "path", None) else None
        number -= count
    return None


def is_same(lines, other):
    """Whether two keys come from one line of one file."""
    return getattr(other, "path", None) is not None and (other.path, other.line, other) == (lines.path, lines.line, lines)


def is_runnable(words):
    """Whether there is an rvtest to ask."""
    return bool(words) and (os.path.sep not in words[0] or os.access(words[0], os.X_OK))
