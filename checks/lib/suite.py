"""Run the checks that need no proof: commands of checks/commands, and rows of checks/tables."""
import argparse
import os
import pathlib
import re
import shutil
import subprocess
import sys
import tempfile

import progress
from cases import TOP, Command, ParallelSuite, Result
from forms import FORMS, TABLES, rows_of
from tables import Malformed

# The commands that need no proof, the longest first, with their words, and whether they run the programs.
SCRIPTS = {
    "runner": ("runner.sh", True),
    "growths": ("growths.sh --quick", True),
    "merge": ("merge.sh", True),
    "accepts": ("accepts.sh 200", True),
    "client": ("client.py", True),
    "gdb_sessions": ("gdb_sessions.py", True),
    "launch": ("launch.sh", False),
    "streams": ("streams.sh", True),
    "docs": ("docs.py", True),
    "lint": ("lint.py", False),
    "ci": ("ci.py", False),
    "grammar": ("grammar.py", False),
    "memory": ("memory.py", False),
    "doors": ("doors.sh", False),
    "kit_counts": ("kit_counts.py", False),
    "kit_lists": ("kit_lists.py", True),
    "samples": ("samples.py", False),
    "version": ("version.sh", False),
    "pages": ("pages.sh", True),
    "completions": ("completions.py", True),
    "worked": ("worked.sh", True),
}


class NoShim(Exception):
    """Why there is no shim."""


# ---- selecting cases

def command_line():
    """The parser of the command line."""
    parser = argparse.ArgumentParser(
        prog="checks/run", usage="%(prog)s [-h] [-k WORD] [CHECK | TABLE | TABLE:ROW]...", description=__doc__, allow_abbrev=False,
        epilog=f"By default everything runs. Checks: {', '.join(SCRIPTS)}. Tables: {', '.join(sorted(FORMS))}.",
    )
    parser.add_argument("-k", metavar="WORD", help="run only the checks and rows whose name, title or text contains this word")
    parser.add_argument("names", metavar="NAME", nargs="*", help="run this check, the rows of this table, or one row of it (repeatable)")
    return parser


def cases_named(name, tables, reject):
    """The cases that a name selects, of all tables' rows by the tables' names."""
    if name in SCRIPTS:
        return [Command(name, SCRIPTS[name][0])]
    table, colon, number = name.partition(":")
    rows = {row.id(): row for row in tables.get(table, [])}
    if not rows:
        reject(f'unknown name "{name}": expected a check ({", ".join(SCRIPTS)}) or a table ({", ".join(tables)})')
    if colon and name not in rows:
        reject(f'unknown row "{number}" of {table}: expected 1 to {len(rows)}')
    return [rows[name]] if colon else rows.values()


def text_of(case):
    """What -k searches: the name of a case with the title and the text of a row, or with the comment at the top of a command."""
    if not isinstance(case, Command):
        return f"{case.id()} {case.title} {case.text}"
    found = re.match(r'#!.*\n((?:#.*\n)+|""".*?""")', (TOP / str(case)).read_text(encoding="utf-8"), re.S)
    return f"{case.id()} {found[1] if found else ''}"


def selected(words, tables, reject):
    """The cases that the words of the command line select, each once. Wrong words are rejected."""
    cases = {case.id(): case for name in words.names or [*SCRIPTS, *tables] for case in cases_named(name, tables, reject)}
    if words.k is None:
        return cases.values()
    found = [case for case in cases.values() if words.k.lower() in text_of(case).lower()]
    if not words.k or not found:
        reject(f'no check and no row contains "{words.k}" in its name, title or text' if words.k else "argument -k: expected a word")
    return found


def tables_of(folder):
    """The rows of each table's file, whose runs have their folders in this one."""
    files = {path.stem: path for path in sorted(TABLES.glob("*.txt"))}
    for name in FORMS.keys() ^ files.keys():
        raise Malformed(f"checks/tables/{name}.txt: {'no form has the name of this file' if name in files else 'No such file'}")
    return {name: rows_of(path, str(folder / "rvtest"), folder) for name, path in files.items()}


# ---- the programs

def by_bash(text, *words):
    """Runs a line of bash behind what the programs' scripts share, and gives what it printed."""
    line = f"source ./launch.bash && source checks/lib/shims.bash && {text}"
    done = subprocess.run(["bash", "-c", line, "bash", *words], cwd=TOP, stdout=subprocess.PIPE, text=True, check=False)
    return done.stdout.strip() if done.returncode == 0 else ""


def take_programs(folder):
    """Puts both programs into a folder. Where there is none, the first start builds them, or says why not."""
    if subprocess.run([TOP / "rvtest", "--version"], stdout=subprocess.DEVNULL, check=False).returncode != 0:
        return False
    for name in ("rvfleet", "rvtest"):
        path = by_bash('program "$1"', name)
        if not os.access(path, os.X_OK):
            print(f"checks/run: there is no program {name}{f' at {path}' if path else ''}", file=sys.stderr)
            return False
        shutil.copy(path, folder / name)
    return True


def take_shim(folder):
    """Gives the rows of terminals the shim that they preload."""
    path = folder / "terminal.so"
    by_bash('take_shim terminal "$1"', str(path))
    if not path.exists():
        raise NoShim("there is no shim of checks/lib/terminal.c: it was not compiled, and programs/ has none of this source")
    os.environ["TERMINAL_SHIM"] = str(path)


# ---- running them

def run(parser, folder):
    """Runs what the command line selects, with the programs and the rows' folders in a folder, and returns the status."""
    words, result = parser.parse_intermixed_args(), Result()
    try:
        cases = selected(words, tables_of(folder), parser.error)
        if any(not isinstance(case, Command) or SCRIPTS[case.name][1] for case in cases) and not take_programs(folder):
            return 3
        if any(getattr(case, "table", None) in progress.FORMS for case in cases):
            take_shim(folder)
        ParallelSuite(cases).run(result)
    except (Malformed, NoShim) as wrong:
        print(f"checks/run: {wrong}", file=sys.stderr)
        result.failed += 1
    print(result)
    return 1 if result.failed else 0


def main():
    os.umask(0o022)
    with tempfile.TemporaryDirectory() as folder:
        os.chmod(folder, 0o755)
        return run(command_line(), pathlib.Path(folder))


if __name__ == "__main__":
    try:
        sys.exit(main())
    except KeyboardInterrupt:
        sys.exit(130)
