#!/usr/bin/env python3
"""checks/commands/client.py: a client of `rvtest gdb` that asks at random, over jobs of which each ends in another way.

    checks/commands/client.py [ROUNDS [SEED]]      absent: 250 requests a job, and the seed 1

Every answer must be what client.d/definition.py says: it has each state of the run in a list, by client.d/model.py, which reads the
instruction set's manual and shares nothing with the simulator. Requests go out cut anywhere, and several at once. And 0x03, which is
Ctrl-C, breaks off moves of a job that runs for long.
"""
import argparse
import json
import pathlib
import random
import signal
import subprocess
import sys
import tempfile

sys.dont_write_bytecode = True
TOP = pathlib.Path(__file__).resolve().parents[2]
sys.path[:0] = [str(pathlib.Path(__file__).with_suffix(".d"))]
from definition import COUNTS, Session  # noqa: E402
from model import BASE, SIZE, Machine  # noqa: E402
from programs import PROGRAMS, SCRIPT, SPINNING  # noqa: E402

RVTEST = TOP / "rvtest"
ROUNDS = 250
# How long a session may take.
SECONDS = 120
# So many requests at most go out before their answers are read.
AT_ONCE = 4
# The most that a budget may be: such a run is under way when a byte comes that was sent behind the packet.
LONG = 1_000_000_000
# A move back of so many steps asks whether 0x03 came; from below 65,536 it does not.
FAR = 10_000_000


class Wrong(Exception):
    """An answer that is not the definition's."""


def packet(body):
    return f"${body}#{sum(body.encode()) % 256:02x}".encode()


class Client:
    """A session with the program, without acknowledgements."""

    def __init__(self, jobs, name):
        self.process = subprocess.Popen([RVTEST, "gdb", jobs, name], stdin=subprocess.PIPE, stdout=subprocess.PIPE)
        self.sent = []
        self.send([packet("QStartNoAckMode")])
        if (met := self.process.stdout.read(7)) != b"+$OK#9a":
            raise Wrong(f"{name}: QStartNoAckMode is answered by {met!r}")

    def send(self, pieces):
        for piece in pieces:
            self.process.stdin.write(piece)
            self.process.stdin.flush()

    def body(self):
        """The body of the next packet that comes."""
        text = b""
        while not text.endswith(b"#"):
            byte = self.process.stdout.read(1)
            if not byte:
                raise Wrong(f"the session ended behind {text!r}")
            text += byte
        found = self.process.stdout.read(2)
        if text[:1] != b"$" or int(found, 16) != sum(text[1:-1]) % 256:
            raise Wrong(f"no packet: {text + found!r}")
        return text[1:-1].decode()

    def end(self):
        """Detaches, which ends the program with status 0."""
        self.send([packet("D")])
        if self.body() != "OK" or self.process.stdout.read() or self.process.wait():
            raise Wrong(f"D does not end the session: status {self.process.returncode}")


def ask(client, pieces, wanted):
    """Sends a request, which is answered so."""
    client.send(pieces)
    if (met := client.body()) != wanted:
        raise Wrong(f"{b''.join(pieces)!r} is answered by {met}, expected {wanted}")


def steps_done(client):
    client.send([packet("p21")])
    return int.from_bytes(bytes.fromhex(client.body()), "little")


# ---- requests

def some_address(chance):
    """An address at which the programs stand, load or store, or near it; now and then another."""
    return chance.choice([BASE + 4 * chance.randrange(16), BASE + 0x100 + chance.randrange(12), BASE + 0x100, BASE + SIZE - 2, 0x1000_0000])


def some_read(chance, session):
    kind = chance.randrange(4)
    if kind == 0:
        return "g", ["".join(session.register(it) for it in range(33))]
    if kind == 1:
        number = chance.choice([*range(0x19), 0x20, *COUNTS])
        return f"p{number:x}", [session.register(number)]
    if kind == 2:
        address, count = some_address(chance), chance.randrange(20)
        return f"m{address:x},{count:x}", [session.memory(address, count)]
    return "?", [session.last]


def some_write(chance, session):
    if chance.randrange(3):
        number = chance.choice(list(COUNTS))
        value = chance.randrange({0x21: len(session.states) + 2, 0x22: 14, 0x23: 9}[number])
        return f"P{number:x}={value.to_bytes(4, 'little').hex()}", [session.write(number, value)]
    number = chance.randrange(33)
    value = session.registers()[number] ^ chance.randrange(2)
    return f"P{number:x}={value.to_bytes(4, 'little').hex()}", [session.write(number, value)]


def some_stop(chance, session):
    put, address = chance.randrange(2) > 0, some_address(chance)
    word = "Z" if put else "z"
    if chance.randrange(2):
        return f"{word}{chance.randrange(2)},{address & ~1:x},4", [session.set_stop(put, session.breaks, address & ~1)]
    kind = chance.randrange(2, 5)
    stops = {2: session.watches, 3: session.reads, 4: session.accesses}[kind]
    if stops and not put:
        address, count = chance.choice(stops)
    else:
        address, count = BASE + 0x100 + chance.randrange(12), chance.randrange(1, 6)
    return f"{word}{kind},{address:x},{count:x}", [session.set_stop(put, stops, (address, count))]


def some_move(chance, session):
    kind = chance.randrange(6)
    if kind == 0:
        low = BASE + 4 * chance.randrange(10)
        high = low + 4 * chance.randrange(6)
        return f"vCont;r{low:x},{high:x}", session.moved(session.forward((low, high)), True)
    words, move, is_forward = [
        (["c", "vCont;c", "C05"], session.forward, True), (["s", "vCont;s:1;c", "S05"], session.step, True),
        (["bc"], session.backward, False), (["bs"], session.step_back, False), (["s"], session.step, True),
    ][kind - 1]
    return chance.choice(words), session.moved(move(), is_forward)


def some_request(chance, session):
    """A request, and the bodies that answer it."""
    kinds = [some_read, some_read, some_write, some_stop, some_stop, some_move, some_move, some_move]
    return chance.choice(kinds)(chance, session)


def some_interrupt(chance):
    """0x03, or nothing. A move here is too short to be broken off by it, and between packets it is dropped."""
    return b"\x03" if chance.random() < 0.2 else b""


def pieces_of(chance, data):
    """Bytes, cut anywhere."""
    cuts = sorted(chance.randrange(len(data) + 1) for _ in range(chance.randrange(3)))
    return [data[a:b] for a, b in zip([0, *cuts], [*cuts, len(data)])]


# ---- jobs

def said_of(jobs, name):
    """What `run` says of a job: its line, and what it does not meet."""
    done = subprocess.run([RVTEST, "run", jobs, "--only", name, "--verbose", "--color", "never"], capture_output=True, text=True, check=False)
    return "".join(done.stdout.splitlines(keepends=True)[:-1])


def talk(chance, jobs, name, run, rounds):
    """A session of so many requests; how many answers were seen."""
    session, client, asked = Session(*run, said_of(jobs, name)), Client(jobs, name), []
    while len(asked) < rounds:
        batch = [some_request(chance, session) for _ in range(chance.randrange(1, AT_ONCE + 1))]
        client.send(pieces_of(chance, b"".join(packet(request) + some_interrupt(chance) for request, _ in batch)))
        for request, wanted in batch:
            asked.append(request)
            met = [client.body() for _ in wanted]
            if met != wanted:
                raise Wrong(f"{name}: {request} is answered by {met}, expected {wanted}; asked so far: {' '.join(asked)}")
    client.end()
    return len(asked)


def job_text(folder, name, words, budget, end):
    """A job of a list, whose image has these words."""
    flat, image = folder / f"{name}.bin", folder / f"{name}.elf"
    flat.write_bytes(b"".join(word.to_bytes(4, "little") for word in words))
    with image.open("wb") as file:
        subprocess.run([TOP / "checks/lib/images.py", "--of", flat], stdout=file, check=True)
    expected = "expect_exit = 0" if end == "exit" else f'expect_end = "{end}"'
    return (f'[[job]]\nname = "{name}"\nimage = "{image}"\nbudget = {budget}\ninput = {json.dumps(SCRIPT.decode())}\n'
            f"region = [{{ base = {BASE:#x}, size = {SIZE:#x} }}]\n{expected}\n")


def put_list(folder):
    """The list of the programs' jobs and of one that spins, and the run of each program."""
    runs, text = {}, job_text(folder, "spinning", SPINNING, LONG, "budget")
    for name, words, budget, end in PROGRAMS:
        text += job_text(folder, name, words, budget, end)
        runs[name] = Machine(SCRIPT).run(words, budget)
    jobs = folder / "jobs.toml"
    jobs.write_text(text, encoding="utf-8")
    return jobs, runs


def break_off(jobs):
    """Moves that 0x03 breaks off, sent with the packet and behind it: forward the run has come on, backward it has not moved."""
    client, place = Client(jobs, "spinning"), 0
    for pieces in [packet("c") + b"\x03"], [packet("c"), b"\x03"]:
        ask(client, pieces, "T02")
        place, before = steps_done(client), place
        if not before < place < LONG:
            raise Wrong(f"spinning: {place} steps are done where it goes on from {before} up to 0x03")
    ask(client, [packet(f"P21={FAR.to_bytes(4, 'little').hex()}")], "OK")
    # With no stop set it would be at the start at once.
    ask(client, [packet(f"Z0,{BASE + 0x100:x},4")], "OK")
    ask(client, [packet("bc") + b"\x03"], "T02")
    if (place := steps_done(client)) != FAR:
        raise Wrong(f"spinning: {place} steps are done where a move back from {FAR} is broken off")
    ask(client, [packet("bs")], "T05")
    client.end()


def positive(word):
    """A number of 1 or more."""
    if not word.isdecimal() or not int(word):
        raise argparse.ArgumentTypeError(f"{word!r} is no number from 1 on")
    return int(word)


def words():
    parser = argparse.ArgumentParser(prog="checks/commands/client.py", allow_abbrev=False)
    parser.add_argument("rounds", nargs="?", type=positive, default=ROUNDS, metavar="ROUNDS")
    parser.add_argument("seed", nargs="?", type=positive, default=1, metavar="SEED")
    return parser.parse_args()


def too_long(*_):
    raise Wrong(f"no answer within {SECONDS} seconds")


def main():
    asked = words()
    rounds, seed = asked.rounds, asked.seed
    signal.signal(signal.SIGALRM, too_long)
    with tempfile.TemporaryDirectory() as folder:
        jobs, runs = put_list(pathlib.Path(folder))
        try:
            signal.alarm(SECONDS)
            break_off(jobs)
            print("spinning: 0x03 breaks off moves forward and backward")
            for name, run in runs.items():
                signal.alarm(SECONDS)
                count = talk(random.Random(f"{seed} {name}"), jobs, name, run, rounds)
                print(f"{name}: {count} requests over {len(run[0]) - 1} steps, which end by {run[1]}")
        except Wrong as wrong:
            print(f"checks/commands/client.py: seed {seed}: {wrong}", file=sys.stderr)
            return 1
    return 0


sys.exit(main())
