#!/usr/bin/env python3
"""checks/commands/lint.py: whether the scripts of the repository are as they should be: shell for `shellcheck`, Python for `ruff`, each where it is
installed; and of each file of Python what needs neither: a docstring, functions of 40 lines at most, and no import that is not used.
Without `shellcheck` its case is skipped. No Debian package has `ruff`, so there is no case for it where it is not installed.
"""
import ast
import pathlib
import shutil
import subprocess
import sys

TOP = pathlib.Path(__file__).resolve().parents[2]
# Folders that have no scripts of ours.
PASSED_OVER = {".git", "crates", "out", "__pycache__"}
MOST_LINES = 40


def files():
    """The files of the repository."""
    for path in sorted(TOP.rglob("*")):
        if path.is_file() and not path.is_symlink() and not PASSED_OVER & {*path.relative_to(TOP).parts[:-1]}:
            yield path


def first_line(path):
    """The first line of a file, or nothing of one that is no text."""
    with path.open("rb") as file:
        return file.readline(200).decode("ascii", "replace")


def is_shell(path):
    line = first_line(path)
    return line.startswith("# shellcheck shell=") or line.startswith("#!") and line.strip().endswith(("bash", "/sh"))


def is_python(path):
    return path.suffix == ".py" or first_line(path).startswith("#!/usr/bin/env python3")


def problems_of(path):
    """What is wrong with a file of Python, a line each."""
    tree = ast.parse(path.read_text(encoding="utf-8"), str(path))
    name = path.relative_to(TOP)
    if ast.get_docstring(tree) is None:
        yield f"{name}:1: no docstring"
    names = {node.id for node in ast.walk(tree) if isinstance(node, ast.Name)}
    for node in ast.walk(tree):
        if isinstance(node, (ast.FunctionDef, ast.AsyncFunctionDef)) and node.end_lineno - node.lineno >= MOST_LINES:
            yield f"{name}:{node.lineno}: {node.name} has {node.end_lineno - node.lineno + 1} lines, of {MOST_LINES} at most"
        elif isinstance(node, (ast.Import, ast.ImportFrom)):
            for one in node.names:
                if (one.asname or one.name).partition(".")[0] not in names:
                    yield f"{name}:{node.lineno}: {one.name} is imported and not used"


def run_tool(words, paths):
    """Runs an installed linter over files, and returns whether it found nothing wrong."""
    done = subprocess.run([*words, *paths], cwd=TOP, check=False, stdout=sys.stderr)
    if done.returncode == 0:
        print(f"{words[0]}: {len(paths)} files")
    return done.returncode == 0


def main():
    found = list(files())
    shell = [path for path in found if is_shell(path)]
    python = [path for path in found if is_python(path)]
    problems = [problem for path in python for problem in problems_of(path)]
    good = True
    if shutil.which("shellcheck"):
        good = run_tool(["shellcheck", "-x"], shell)
    else:
        print(f"skipped: shellcheck is not installed, so {len(shell)} files are not checked")
    if shutil.which("ruff"):
        good = run_tool(["ruff", "check", "--isolated", "--no-cache"], python) and good
    for problem in problems:
        print(f"checks/commands/lint.py: {problem}", file=sys.stderr)
    if problems or not good:
        sys.exit(1)
    print(f"checks/commands/lint.py: {len(python)} files of Python{'' if shutil.which('ruff') else ' (without ruff, which is not installed)'}")


main()
