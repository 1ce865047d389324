#!/usr/bin/env python3
"""What a shell offers behind `rvtest`, over examples/fleet.toml, with the completions of packaging.

    checks/commands/completions.py [SHELL..]    bash, zsh or fish; absent: bash
"""
import os
import pathlib
import pty
import re
import select
import shlex
import subprocess
import sys
import tempfile
import time

TOP = pathlib.Path(__file__).resolve().parent.parent.parent
PACKAGING = TOP / "packaging"
# A line as it is typed, and the words of which all are offered, and no others but for options and files.
ROWS = [
    ("rvtest ru", ["run"]),
    ("rvtest run fleet.toml --only ch", ["checksum", "checksum-misaligned", "checksum-without-c"]),
    ("rvtest run fleet.toml --verbose --only up", ["upper", "upper-in-two-regions"]),
    ("rvtest explain fleet.toml up", ["upper", "upper-in-two-regions"]),
    ("rvtest explain fl", ["fleet.toml"]),
    ("rvtest run fleet.toml --wor", ["--workers"]),
    ("rvtest run --root fol", ["folder"]),
    ("rvtest run missing.toml --only up", []),
    ("rvtest run fleet.toml --match up", []),
    ("rvtest run fleet.toml --suite up", []),
    ("rvtest run fleet.toml --color a", ["always", "auto"]),
    ("rvtest show fleet.toml --color n", ["never"]),
    ("rvtest help k", ["keys"]),
    ("rvtest help prof", ["profile"]),
    ("rvfleet on", ["one"]),
]
# A list that is called as a command is. fish takes such a word for the command, and zsh offers no files behind a list.
BASH_ROWS = [("rvtest explain help f", ["fleet.toml", "folder"])]


def offered_by_bash(line, folder):
    words = shlex.split(line)
    script = f"""
        source {shlex.quote(str(PACKAGING / "completion.bash"))}
        COMP_WORDS=({shlex.join(words)})
        COMP_CWORD={len(words) - 1}
        _rvfleet {shlex.join([words[0], words[-1], words[-2]])}
        printf '%s\\n' "${{COMPREPLY[@]}}"
    """
    return said(["bash", "-c", script], folder)


def offered_by_fish(line, folder):
    script = f"source {shlex.quote(str(PACKAGING / 'completion.fish'))}; complete -C {shlex.quote(line)}"
    return [told.split("\t")[0].rstrip("/") for told in said(["fish", "--no-config", "-c", script], folder)]


def said(command, folder):
    ran = subprocess.run(command, cwd=folder, env=environment(folder), capture_output=True, text=True, check=True)
    return [line for line in ran.stdout.splitlines() if line]


class Zsh:
    """A shell on a terminal of its own: zsh completes nothing without one."""

    def __init__(self, folder):
        child, self.terminal = pty.fork()
        if child == 0:
            os.chdir(folder)
            os.execvpe("zsh", ["zsh", "-f", "-i"], environment(folder))
        functions = folder / "functions"
        functions.mkdir()
        (functions / "_rvtest").write_text((PACKAGING / "completion.zsh").read_text())
        self.type("PROMPT='> '; fpath=(./functions $fpath); autoload -Uz compinit; compinit -u -D; LISTMAX=1000; setopt no_list_ambiguous\n", 3)

    def type(self, text, seconds):
        """Types a text, and gives what the terminal shows until nothing more comes for that long."""
        os.write(self.terminal, text.encode())
        shown, quiet_since = b"", time.monotonic()
        while time.monotonic() - quiet_since < seconds:
            if select.select([self.terminal], [], [], 0.1)[0]:
                shown += os.read(self.terminal, 65536)
                quiet_since = time.monotonic()
        return re.sub(r"\x1b\[[0-9;?]*[a-zA-Z]|\x07|\r", "", shown.decode(errors="replace"))

    def offered(self, line):
        """What is listed behind a line, or the word that it was completed to."""
        shown = self.type(f"{line}\t", 1)
        self.type("\x15", 0.3)
        first, *listed = [part for part in shown.split("\n") if part]
        names = [word for part in listed if not part.startswith("> ") for word in part.split()]
        last = first.split()[-1].rstrip("/")
        return names or ([] if last == line.split()[-1] else [last])


def environment(folder):
    return {**os.environ, "PATH": f"{folder}/bin:{os.environ['PATH']}", "TERM": "dumb", "LC_ALL": "C.UTF-8", "HOME": str(folder)}


def offering(shell, folder):
    """What offers words behind a line, of a shell."""
    if shell == "zsh":
        return Zsh(folder).offered
    by = {"bash": offered_by_bash, "fish": offered_by_fish}[shell]
    return lambda line: by(line, folder)


def main(shells):
    for shell in shells or ["bash"]:
        if shell not in ("bash", "zsh", "fish"):
            sys.exit(f"checks/commands/completions.py: '{shell}' is no shell that has completions here; usage: checks/commands/completions.py [bash|zsh|fish]..")
        with tempfile.TemporaryDirectory() as made:
            folder = pathlib.Path(made)
            (folder / "bin").mkdir()
            for program in ("rvtest", "rvfleet"):
                path = folder / "bin" / program
                path.write_text(f'#!/bin/sh\nexec {shlex.quote(str(TOP / program))} "$@"\n')
                path.chmod(0o755)
            (folder / "folder").mkdir()
            (folder / "fleet.toml").write_text((TOP / "examples" / "fleet.toml").read_text())
            offered = offering(shell, folder)
            for line, wanted in ROWS + BASH_ROWS * (shell == "bash"):
                met = sorted(offered(line))
                if met != wanted:
                    sys.exit(f"checks/commands/completions.py: {shell}: behind '{line}' {' '.join(met) or 'nothing'} is offered, expected {' '.join(wanted) or 'nothing'}")
                print(f"{shell}: {line}: {' '.join(met) or 'nothing'}")


main(sys.argv[1:])
