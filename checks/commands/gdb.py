#!/usr/bin/env python3
"""checks/commands/gdb.py: sessions of gdb-multiarch with `rvtest gdb`, over firmware that is built here by the kit.

    checks/commands/gdb.py [SESSION..]      the sessions of these names in gdb.d; absent: all, gdb that is killed, a terminal in its place, make debug

A session is a file: its first line has the job and the compiler's word; `alone` leaves the image to the program, `extended` and `mi` are
ways to call gdb. `> COMMAND` is what gdb is told, and every other line must be among those that gdb prints, each behind the one before.
`{*}` stands for any text; `{NAME}` does, too, and for the same text wherever it stands again. Steps are those of Debian's compiler, so
they have names. It needs Debian's gdb-multiarch, gcc-riscv64-unknown-elf and picolibc-riscv64-unknown-elf.
"""
import os
import pathlib
import re
import shutil
import signal
import subprocess
import sys
import tempfile
import time

TOP = pathlib.Path(__file__).resolve().parents[2]
HERE = pathlib.Path(__file__).with_suffix(".d")
GDB = ["gdb-multiarch", "-q", "-nx"]
SETTINGS = [
    "debuginfod enabled off", "pagination off", "confirm off", "style enabled off", "width 0", "remotetimeout 60", "sysroot",
]
# How long a session may take.
SECONDS = 300


class Wrong(Exception):
    """What a session showed that it should not."""


def build(folder, word):
    """Builds the firmware with a word for the compiler, and gives the list of its jobs."""
    tests = folder / word.strip("-")
    tests.mkdir()
    for file in HERE.iterdir():
        if file.suffix != ".session":
            shutil.copy(file, tests)
    done = subprocess.run(
        ["make", "--no-print-directory", "-C", TOP / "firmware", "list", f"TESTS={tests}", f"CFLAGS={word} -g"],
        stdout=subprocess.PIPE, stderr=subprocess.STDOUT, text=True, check=False,
    )
    if done.returncode != 0:
        raise Wrong(f"firmware was not built by {word}:\n{done.stdout}")
    return tests / "build" / f"{tests.name}.toml"


def call(jobs, job, how="remote"):
    """What gdb is told to start a session over a job."""
    return f"target {how} | {TOP / 'rvtest'} gdb {jobs} {job}"


def pattern(line, met):
    """What a line must be, with the texts that stand for names already."""
    parts = []
    for at, part in enumerate(re.split(r"\{(\*|\w+)\}", line)):
        if at % 2 == 0:
            parts.append(re.escape(part))
        elif part == "*":
            parts.append(".*?")
        elif part in met:
            parts.append(re.escape(met[part]))
        else:
            parts.append(f"(?P<{part}>.*?)")
    return re.compile("".join(parts))


def run(session, lists):
    """Runs a session, and says how many lines were as they must be."""
    head, *lines = session.read_text().splitlines()
    job, word, *how = head.split()
    jobs = lists[word]
    words = [*GDB, *(it for setting in SETTINGS for it in ("-iex", f"set {setting}"))]
    if "mi" in how:
        words.append("-i=mi3")
    if "alone" not in how:
        words.append(str(jobs.parent / f"{job}.elf"))
    told = [line[2:] for line in lines if line.startswith("> ")]
    done = subprocess.run(
        words, input="\n".join([call(jobs, job, "extended-remote" if "extended" in how else "remote"), *told, "quit", ""]),
        stdout=subprocess.PIPE, stderr=subprocess.STDOUT, text=True, errors="backslashreplace", timeout=SECONDS, check=False,
    )
    printed = [re.sub(r"^(\(gdb\) )+", "", line).rstrip() for line in done.stdout.splitlines()]
    wanted = [line for line in lines if line and not line.startswith("> ")]
    at, met = 0, {}
    for line in wanted:
        for at in range(at, len(printed)):
            found = pattern(line, met).fullmatch(printed[at])
            if found:
                met |= found.groupdict()
                at += 1
                break
        else:
            raise Wrong(f"gdb did not print {line!r}; it printed\n{done.stdout}")
    return f"{len(told)} commands, {len(wanted)} lines"


def is_there(process):
    """Whether a process is there that is no zombie."""
    try:
        return pathlib.Path(f"/proc/{process}/stat").read_text().rsplit(")", 1)[1].split()[0] != "Z"
    except OSError:
        return False


def start_gdb(folder, jobs, job, commands, until):
    """Starts gdb over a job, and reads what it prints up to a line; gives gdb, and the process that it started."""
    noted = folder / f"process-{job}-{time.monotonic_ns()}"
    start = f"target remote | echo $$ >{noted}; exec {TOP / 'rvtest'} gdb {jobs} {job}"
    gdb = subprocess.Popen(
        [*GDB, *(it for setting in SETTINGS for it in ("-iex", f"set {setting}"))],
        stdin=subprocess.PIPE, stdout=subprocess.PIPE, stderr=subprocess.STDOUT, text=True,
    )
    gdb.stdin.write("\n".join([start, *commands, ""]))
    gdb.stdin.flush()
    read_until(gdb, until)
    return gdb, int(noted.read_text())


def read_until(gdb, text):
    """Reads what gdb prints up to a line with a text."""
    for line in gdb.stdout:
        if text in line:
            return
    raise Wrong(f"gdb did not print {text!r}")


def kill_gdb(gdb, process):
    """Kills gdb: the program that it started ends. Gives how long that took, in seconds."""
    if not is_there(process):
        raise Wrong("the program is not there while gdb is")
    gdb.send_signal(signal.SIGKILL)
    gdb.wait()
    killed = time.monotonic()
    # A busy machine takes its time.
    while is_there(process):
        if time.monotonic() > killed + 20:
            raise Wrong("gdb was killed, and the program is there 20 seconds later")
        time.sleep(0.01)
    return time.monotonic() - killed


def kill_standing(folder, jobs):
    """Kills gdb while it stands at a breakpoint."""
    kill_gdb(*start_gdb(folder, jobs, "uart", ["break main", "continue"], "Breakpoint 1, main"))
    return "gdb was killed while it stood, and the program ended"


def kill_running(folder, jobs):
    """Kills gdb while a job runs that has 1,000,000,000 steps."""
    gdb, process = start_gdb(folder, jobs, "spin", ["continue"], "Continuing.")
    time.sleep(0.3)
    seconds = kill_gdb(gdb, process)
    return f"gdb was killed while it ran, and the program ended {seconds:.2f} seconds later"


def interrupt_gdb(folder, jobs, how):
    """Ctrl-C while a job runs, forward at full speed, forward with a watch or backward: gdb stands, and goes on from there."""
    commands = {
        "forward": ["continue"],
        "with a watch": ["watch never", "continue"],
        "backward": ["set $steps = 900000000", "watch never", "reverse-continue"],
    }[how]
    gdb, _ = start_gdb(folder, jobs, "spin", commands, "Continuing.")
    time.sleep(0.3)
    gdb.send_signal(signal.SIGINT)
    read_until(gdb, "SIGINT")
    gdb.stdin.write("printf \"at %u\\n\", $steps\ndelete\nstepi\nreverse-stepi\nprintf \"again at %u\\n\", $steps\nquit\n")
    gdb.stdin.close()
    printed = gdb.stdout.read()
    gdb.wait()
    found = re.search(r"^(?:\(gdb\) )*at (\d+)$.*^(?:\(gdb\) )*again at \1$", printed, re.MULTILINE | re.DOTALL)
    if found is None or int(found[1]) == 1_000_000_000 or (how == "backward" and found[1] != "900000000"):
        raise Wrong(f"behind Ctrl-C ({how}) gdb printed\n{printed}")
    return f"Ctrl-C stopped it {how}, and it went on from there"


def refuse_terminal(jobs):
    """Starts the program at a terminal: it is told how gdb starts it."""
    ours, theirs = os.openpty()
    done = subprocess.run(
        [TOP / "rvtest", "gdb", jobs, "uart"], stdin=theirs, stdout=theirs, stderr=subprocess.PIPE, text=True, timeout=SECONDS, check=False,
    )
    os.close(ours)
    os.close(theirs)
    if done.returncode != 2 or "target remote | rvtest gdb" not in done.stderr:
        raise Wrong(f"at a terminal the status is {done.returncode}, and standard error has {done.stderr!r}")
    return "the person at it was told how gdb starts the program"


def debug_target(tests):
    """The kit's `make debug` builds, and gdb stands at the first instruction of the test; without a test's name no gdb is started."""
    make = ["make", "--no-print-directory", "-C", TOP / "firmware", "debug", f"TESTS={tests}"]
    done = subprocess.run(
        [*make, "TEST=wild", "GDB=gdb-multiarch -nx -batch"],
        stdin=subprocess.DEVNULL, stdout=subprocess.PIPE, stderr=subprocess.STDOUT, text=True, timeout=SECONDS, check=False,
    )
    if done.returncode != 0 or "\n_start ()" not in done.stdout:
        raise Wrong(f"make debug has status {done.returncode}, and printed\n{done.stdout}")
    for word, wanted in (("TEST=", "TEST must be the name of one test"), ("TEST=wildd", 'no test "wildd"\nhelp: did you mean "wild"?')):
        refused = subprocess.run([*make, word], stdout=subprocess.PIPE, stderr=subprocess.STDOUT, text=True, timeout=SECONDS, check=False)
        if refused.returncode == 0 or wanted not in refused.stdout or "remote" in refused.stdout:
            raise Wrong(f"make debug {word} has status {refused.returncode}, and printed\n{refused.stdout}")
    return "gdb stood at _start"


def main():
    names = sys.argv[1:]
    sessions = sorted(it for it in HERE.glob("*.session") if not names or it.stem in names)
    if names and len(sessions) != len(names):
        print(f"checks/commands/gdb.py: {HERE} has not all of these: {' '.join(names)}", file=sys.stderr)
        return 2
    with tempfile.TemporaryDirectory() as folder:
        folder = pathlib.Path(folder)
        try:
            lists = {word: build(folder, word) for word in ("-O0", "-Og")}
            for session in sessions:
                print(f"{session.stem}: {run(session, lists)}", flush=True)
            if not names:
                print(f"killed: {kill_standing(folder, lists['-O0'])}")
                print(f"killed: {kill_running(folder, lists['-O0'])}")
                for how in ("forward", "with a watch", "backward"):
                    print(f"interrupted: {interrupt_gdb(folder, lists['-O0'], how)}")
                print(f"terminal: {refuse_terminal(lists['-O0'])}")
                print(f"make debug: {debug_target(lists['-O0'].parents[1])}")
        except Wrong as wrong:
            print(f"checks/commands/gdb.py: {wrong}", file=sys.stderr)
            return 1
    return 0


sys.exit(main())
