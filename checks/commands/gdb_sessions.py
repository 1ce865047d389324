#!/usr/bin/env python3
"""checks/commands/gdb_sessions.py: sessions of gdb with `rvtest gdb` that were recorded, over the example firmware.

    checks/commands/gdb_sessions.py [--seed N] [NAME..]     sends again what gdb sent: each answer must be the recorded one, byte for byte
    checks/commands/gdb_sessions.py --record [NAME..]       records them anew, by gdb-multiarch

gdb_sessions.d/NAME.gdb begins with the list and the job, and has what gdb is told. NAME.packets has what went over the pipe: what gdb
sent behind `> `, and what it was answered behind `< `. A session is sent as it was recorded, and then cut anywhere, by the seed.
"""
import argparse
import os
import pathlib
import random
import selectors
import signal
import subprocess
import sys

TOP = pathlib.Path(__file__).resolve().parents[2]
HERE = pathlib.Path(__file__).with_suffix(".d")
RVTEST = "./rvtest"
SETTINGS = ["debuginfod enabled off", "pagination off", "confirm off", "style enabled off", "width 0", "remotetimeout 60", "sysroot"]
# How long a session may take.
SECONDS = 120
# How often a session is sent in other cuts.
CUTS = 3
# The most bytes that are read at once.
MOST_BYTES = 1 << 16


class Wrong(Exception):
    """What a session showed that it should not."""


# ---- what is recorded

def job_of(name):
    """The list and the job of a session, and its commands."""
    head, *commands = (HERE / f"{name}.gdb").read_text(encoding="utf-8").splitlines()
    return head.removeprefix("# ").split(), commands


def written(data):
    """Bytes in a line, and back."""
    return data.decode("latin-1").encode("unicode_escape").decode("ascii")


def read_back(line):
    return line.encode("ascii").decode("unicode_escape").encode("latin-1")


def turns_of(name):
    """What gdb sent, and what it was answered, one after another."""
    turns = []
    for line in (HERE / f"{name}.packets").read_text(encoding="ascii").splitlines():
        if line.startswith("> "):
            turns.append((read_back(line[2:]), b""))
        else:
            turns[-1] = (turns[-1][0], read_back(line[2:]))
    return turns


# ---- sending it again

def pieces_as_recorded(turns):
    return [asked for asked, _ in turns]


def pieces_cut(chance, turns):
    """The same bytes, cut anywhere: now and then so that several requests go out at once."""
    whole = b"".join(asked for asked, _ in turns)
    most = chance.choice([2, 8, 64, 300])
    at, pieces = 0, []
    while at < len(whole):
        count = chance.randrange(1, most + 1)
        pieces.append(whole[at:at + count])
        at += count
    return pieces


def due(turns, sent):
    """What must have come once so many bytes are sent: the answers of all turns whose last byte is among them."""
    end, answers = 0, b""
    for asked, answer in turns:
        end += len(asked)
        if end > sent:
            break
        answers += answer
    return answers


def read_on(process, met, wanted):
    """Reads until all came that is wanted, or something else."""
    while len(met) < len(wanted) and wanted.startswith(met):
        data = os.read(process.stdout.fileno(), len(wanted) - len(met))
        if not data:
            raise Wrong(f"the session ended behind {met[-80:]!r}")
        met += data
    return met


def send(name, turns, pieces):
    """Sends pieces, each once all is answered that was sent whole before it."""
    (jobs, job), _ = job_of(name)
    with subprocess.Popen([RVTEST, "gdb", jobs, job], stdin=subprocess.PIPE, stdout=subprocess.PIPE, cwd=TOP) as process:
        sent, met = 0, b""
        for piece in pieces:
            process.stdin.write(piece)
            process.stdin.flush()
            sent += len(piece)
            wanted = due(turns, sent)
            met = read_on(process, met, wanted)
            if met != wanted:
                at = len(os.path.commonprefix([met, wanted]))
                raise Wrong(f"{name}: behind {piece!r} came {met[at:at + 200]!r}, expected {wanted[at:at + 200]!r}")
        process.stdin.close()
        rest = process.stdout.read()
    if rest or process.returncode:
        raise Wrong(f"{name}: at its end came {rest!r}, and status {process.returncode}")


def replay(name, seed):
    """Sends a session as it was recorded, and cut otherwise; how many turns it has."""
    turns, chance = turns_of(name), random.Random(f"{seed} {name}")
    signal.alarm(SECONDS)
    for pieces in [pieces_as_recorded(turns), *(pieces_cut(chance, turns) for _ in range(CUTS))]:
        send(name, turns, pieces)
    signal.alarm(0)
    return f"{name}: {len(turns)} turns, {1 + CUTS} times"


# ---- recording

def between(log, jobs, job):
    """Stands between gdb and the program, and writes down what goes through."""
    turns, last = [], None
    with subprocess.Popen([RVTEST, "gdb", jobs, job], stdin=subprocess.PIPE, stdout=subprocess.PIPE, cwd=TOP) as process:
        ways = selectors.DefaultSelector()
        ways.register(0, selectors.EVENT_READ, (">", process.stdin.fileno()))
        ways.register(process.stdout.fileno(), selectors.EVENT_READ, ("<", 1))
        while process.stdout.fileno() in ways.get_map():
            for key, _ in ways.select():
                mark, out = key.data
                if data := os.read(key.fd, MOST_BYTES):
                    turns[-1:] = [turns[-1] + data] if mark == last else [*turns[-1:], data]
                    last = mark
                    os.write(out, data)
                else:
                    ways.unregister(key.fd)
                    if mark == ">":
                        process.stdin.close()
    marks = "><" * len(turns)
    log.write_text("".join(f"{mark} {written(data)}\n" for mark, data in zip(marks, turns)), encoding="ascii")
    return process.returncode


def record(name):
    """Has gdb speak with the program, keeps what both say, and gives what gdb printed."""
    (jobs, job), commands = job_of(name)
    log = HERE / f"{name}.packets"
    start = f"target remote | {pathlib.Path(__file__)} --between {log} {jobs} {job}"
    done = subprocess.run(
        ["gdb-multiarch", "-q", "-nx", *(it for setting in SETTINGS for it in ("-iex", f"set {setting}"))],
        input="\n".join([start, *commands, "quit", ""]), cwd=TOP, timeout=SECONDS,
        stdout=subprocess.PIPE, stderr=subprocess.STDOUT, text=True, errors="backslashreplace", check=False,
    )
    return f"{done.stdout}\n{name}: {len(turns_of(name))} turns"


# ---- words

def words():
    parser = argparse.ArgumentParser(prog="checks/commands/gdb_sessions.py", allow_abbrev=False)
    parser.add_argument("--record", action="store_true")
    parser.add_argument("--seed", type=int, default=1, metavar="N")
    parser.add_argument("--between", nargs=3, help=argparse.SUPPRESS)
    parser.add_argument("names", nargs="*", metavar="NAME")
    return parser.parse_args()


def too_long(*_):
    raise Wrong(f"no answer within {SECONDS} seconds")


def main():
    asked = words()
    if asked.between:
        log, jobs, job = asked.between
        return between(pathlib.Path(log), jobs, job)
    names = asked.names or sorted(it.stem for it in HERE.glob("*.gdb"))
    signal.signal(signal.SIGALRM, too_long)
    try:
        for name in names:
            print(record(name) if asked.record else replay(name, asked.seed), flush=True)
    except (OSError, Wrong) as wrong:
        print(f"checks/commands/gdb_sessions.py: {wrong}", file=sys.stderr)
        return 1
    return 0


sys.exit(main())
