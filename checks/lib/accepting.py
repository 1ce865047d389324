#!/usr/bin/env python3
"""Accepts lists that are made at random, a list whose writing is killed at each change of a disk and at each write, and two lists that
share a golden file.

    checks/lib/accepting.py RVTEST SHIM FOLDER LISTS SEED
"""
import concurrent.futures
import fcntl
import os
import pathlib
import random
import shutil
import subprocess
import sys

import images

STEPS = 9999
CHARACTERS = ["a", "b", " ", "\n", "\t", '"', "'", "\\", "#", "\x1b", "\x7f", "é", "😀", "\r", "=", "]"]
ENDS = ["0", "1", "77", "illegal", "breakpoint", "load-access", "budget"]


class Failed(Exception):
    """What is not so."""


def run(rvtest, folder, words, **environment):
    """Runs the program: its status, its output and what it says beside that."""
    done = subprocess.run(
        [rvtest, *words], cwd=folder, capture_output=True, check=False, stdin=subprocess.DEVNULL, env={**os.environ, **environment}
    )
    return done.returncode, done.stdout.decode(errors="replace"), done.stderr.decode(errors="replace")


def contents(folder):
    return {path.name: path.read_bytes() for path in folder.iterdir()}


# ---- values of TOML

def basic(text):
    """A text in quotes, each character that may stand behind a backslash perhaps so."""
    def one(character):
        if character in '"\\' or ord(character) < 32 or ord(character) == 127:
            return f"\\U{ord(character):08x}"
        return character
    return '"' + "".join(map(one, text)) + '"'


def fits_literal(text, others=""):
    return all(character >= " " and character not in "'\x7f" or character in others for character in text)


def forms_of(text):
    """The text as each form of string that can have it."""
    forms = [basic(text)]
    forms.append('"""' + basic(text)[1:-1] + '"""')
    forms.append('"""\n' + basic(text)[1:-1] + '\\\n   """')
    if fits_literal(text):
        forms.append(f"'{text}'")
    if fits_literal(text, "\n\t"):
        forms.append(f"'''\n{text}'''")
    return forms


def key_of(chance, key):
    return chance.choice([key, key, f'"{key}"', f"'{key}'"])


def entry(chance, key, value):
    equals = chance.choice([" = ", "=", "  =\t"])
    return key_of(chance, key) + equals + value + chance.choice(["", "", " # was so", '# "x" = \'y\''])


# ---- jobs

def text_of(chance, most):
    return "".join(chance.choice(CHARACTERS) for _ in range(chance.randrange(most)))


def wrong_exit(chance, end):
    return chance.choice([code for code in (0, 3, 4_294_967_295) if str(code) != end])


def wrong_fault(chance, end):
    return chance.choice([kind for kind in ("illegal", "breakpoint", "stale-code") if kind != end])


def end_entry(chance, end):
    """What is expected of the end: the same, or where another code or kind is, another one."""
    turned = chance.random() < 0.5
    if end.isdigit():
        code = wrong_exit(chance, end) if turned else int(end)
        return entry(chance, "expect_exit", chance.choice([str(code), hex(code)]))
    if end == "budget":
        return entry(chance, "expect_end", chance.choice(["'budget'", '"budget"']))
    return entry(chance, "expect_end", basic(wrong_fault(chance, end) if turned else end))


def job_table(chance, folder, number):
    """The table of a job, whose image and golden files are made."""
    name, console, end = f"job{number}", text_of(chance, 12), chance.choice(ENDS)
    words = [chance.randrange(2**31) for _ in range(chance.randrange(3))]
    raw = console.encode() + chance.choice([b"", b"", b"\xff"])
    code = images.run_of(raw, end)[0]
    (folder / f"{name}.elf").write_bytes(images.with_signature(code, words))
    entries = [
        entry(chance, "name", f"'{name}'"),
        entry(chance, "image", f"'{name}.elf'"),
        entry(chance, "budget", str(STEPS)),
        entry(chance, "signature", "['x', 'y']"),
        end_entry(chance, end),
    ]
    way = chance.choice(["text", "file", "none"]) if raw == console.encode() else chance.choice(["file", "none"])
    if way == "text":
        old = chance.choice([text_of(chance, 9), console])
        entries.append(entry(chance, "expect_console", chance.choice(forms_of(old))))
    elif way == "file":
        entries.append(entry(chance, "expect_console_file", f"'{name}.out'"))
        golden(chance, folder / f"{name}.out", raw)
    if chance.random() < 0.5:
        entries.append(entry(chance, "expect_signature", f"'{name}.sig'"))
        golden(chance, folder / f"{name}.sig", "".join(f"{word:08x}\n" for word in words).encode())
    chance.shuffle(entries)
    return "\n".join([chance.choice(["[[job]]", "[[ job ]] # a job", '[["job"]]']), *entries]) + "\n"


def golden(chance, path, right):
    """A golden file that is right, is wrong or is missing."""
    text = chance.choice([right, right + b"x", b"", None])
    if text is not None:
        path.write_bytes(text)


def list_of(chance, folder):
    text = chance.choice(["", "# A list.\n\n"]) + "\n".join(
        job_table(chance, folder, number) for number in range(chance.randrange(1, 6))
    )
    data = text.encode()
    if chance.random() < 0.2 and b"'''" not in data and b'"""' not in data:
        data = data.replace(b"\n", b"\r\n")
    return chance.choice([b"", b"", b"\xef\xbb\xbf"]) + data


# ---- what is tried

def try_check(rvtest, folder):
    """With --check nothing changes, and the status says whether something would."""
    before = contents(folder)
    status, told, said = run(rvtest, folder, ["accept", "list.toml", "--ends", "--check"])
    if said or contents(folder) != before or status != int(not told.startswith("0 files")):
        raise Failed(f"--check: status {status}, {told}{said}")


def try_list(rvtest, folder, seed, is_checked):
    """A list whose expectations are turned passes behind `accept`, which changes nothing the second time."""
    chance = random.Random(seed)
    (folder / "list.toml").write_bytes(list_of(chance, folder))
    if is_checked:
        try_check(rvtest, folder)
    status, told, said = run(rvtest, folder, ["accept", "list.toml", "--ends"])
    if status or said:
        raise Failed(f"accept: status {status}, {told}{said}")
    status, shown, said = run(rvtest, folder, ["run", "list.toml"])
    if status or said:
        raise Failed(f"run: status {status}, {shown}{said}")
    after = contents(folder)
    status, told, said = run(rvtest, folder, ["accept", "list.toml", "--ends"])
    if (status, told, said) != (0, "0 files written, 0 skipped\n", "") or contents(folder) != after:
        raise Failed(f"the second accept: status {status}, {told}{said}")


def list_to_kill(made):
    """A list of three golden files and a value, all of which are wrong, and what the files are once it is accepted."""
    made.mkdir()
    tables = []
    for number in range(3):
        name = f"job{number}"
        (made / f"{name}.elf").write_bytes(images.program(images.run_of(b"ab", "0")[0]))
        (made / f"{name}.out").write_bytes(b"old")
        tables.append(f"[[job]]\nname = '{name}'\nimage = '{name}.elf'\nbudget = {STEPS}\nexpect_console_file = '{name}.out'\n")
    (made / "text.elf").write_bytes(images.program(images.run_of(b"ab", "0")[0]))
    tables.append(f"[[job]]\nname = 'text'\nimage = 'text.elf'\nbudget = {STEPS}\nexpect_console = 'old'\n")
    (made / "list.toml").write_text("".join(tables))
    new = {**contents(made), **{f"job{number}.out": b"ab" for number in range(3)}}
    new["list.toml"] = new["list.toml"].replace(b"'old'", b'"ab"')
    return new


def try_kills(rvtest, shim, folder, variable):
    """Each file is old or new, whichever of the calls the process is killed before, and the next call ends the work."""
    made = folder / variable
    new = list_to_kill(made)
    old = contents(made)
    for call in range(1, 99):
        place = folder / f"{variable}{call}"
        shutil.copytree(made, place)
        status, _, said = run(rvtest, place, ["accept", "list.toml"], LD_PRELOAD=shim, **{variable: str(call)})
        found = contents(place)
        is_whole = all(found[name] in (old[name], new[name]) for name in old)
        if not is_whole or found["list.toml"] == new["list.toml"] and any(found[name] != new[name] for name in new):
            raise Failed(f"killed before call {call}: {found}")
        if status == 0:
            return call - 1
        again = run(rvtest, place, ["accept", "list.toml"])
        if again[0] or again[2] or contents(place) != new:
            raise Failed(f"behind a kill before call {call}: {again}, {contents(place)}, {said}")
    raise Failed("no run was whole")


def try_shared(rvtest, folder):
    """Of two lists that share a golden file each is accepted by itself: the file is then that of the list that was accepted last."""
    shared = folder / "shared"
    shared.mkdir()
    for name, console in (("one", b"ab"), ("two", b"cd")):
        (shared / f"{name}.elf").write_bytes(images.program(images.run_of(console, "0")[0]))
        table = f"[[job]]\nname = '{name}'\nimage = '{name}.elf'\nbudget = {STEPS}\nexpect_console_file = 'golden'\n"
        (shared / f"{name}.toml").write_text(table)
    for name, other, console in (("one", "two", b"ab"), ("two", "one", b"cd"), ("one", "two", b"ab")):
        accepted = run(rvtest, shared, ["accept", f"{name}.toml"])
        passed = run(rvtest, shared, ["run", f"{name}.toml"])[0]
        failed = run(rvtest, shared, ["run", f"{other}.toml"])[0]
        if accepted[0] or accepted[2] or (passed, failed) != (0, 1) or (shared / "golden").read_bytes() != console:
            raise Failed(f"of two lists: {name} is accepted with {accepted}, statuses {passed} and {failed}")


def changed(name):
    return f"rvtest: {name}: changed since it was read; nothing was written\n"


def ended(process):
    """The status of a process that was started, and what it says beside its output, which is read to its end."""
    _, said = process.communicate(timeout=60)
    return process.returncode, said.decode()


def try_changed_list(rvtest, folder):
    """A comment that is appended to the list while an image is read stays, and no golden file is written."""
    place = folder / "changed_list"
    list_to_kill(place)
    image = (place / "text.elf").read_bytes()
    (place / "text.elf").unlink()
    os.mkfifo(place / "text.elf")
    accept = subprocess.Popen([rvtest, "accept", "list.toml"], cwd=place, stdout=subprocess.PIPE, stderr=subprocess.PIPE)
    # Opens once `accept` does so, too: the list is read by then.
    with open(place / "text.elf", "wb") as fifo:
        with open(place / "list.toml", "a", encoding="ascii") as jobs:
            jobs.write("# mine\n")
        fifo.write(image)
    found = ended(accept)
    if found != (3, changed("list.toml")) or not (place / "list.toml").read_text().endswith("# mine\n"):
        raise Failed(f"a list that changes: {found}")
    if any((place / f"job{number}.out").read_bytes() != b"old" for number in range(3)):
        raise Failed("a list that changes: a golden file was written")


def try_changed_golden_file(rvtest, folder):
    """A golden file that changes while changes are told stays, and no other one is written."""
    place, jobs = folder / "changed_golden_file", 200
    place.mkdir()
    (place / "a.elf").write_bytes(images.program(images.run_of(b"ab", "0")[0]))
    tables = [
        f"[[job]]\nname = 'job{number}'\nimage = 'a.elf'\nbudget = {STEPS}\nexpect_console_file = 'job{number}.out'\n" for number in range(jobs)
    ]
    (place / "list.toml").write_text("".join(tables))
    there, into = os.pipe()
    # The lines of 200 files do not fit into the pipe, even after the first read, so `accept` waits for the second one.
    room = fcntl.fcntl(into, fcntl.F_SETPIPE_SZ, 4096)
    accept = subprocess.Popen([rvtest, "accept", "list.toml"], cwd=place, stdout=into, stderr=subprocess.PIPE)
    os.close(into)
    # Without a buffer, which would take all that the pipe has with the first read.
    with open(there, "rb", buffering=0) as told:
        first = told.read(room // 2)
        (place / "job1.out").write_bytes(b"mine")
        whole = first + told.readall()
    found = ended(accept)
    if not whole.endswith(f"job{jobs - 1}, 2 bytes\n".encode()):
        raise Failed(f"a golden file that changes: the output ends with {whole[-80:]!r}, and then {found}")
    if found != (3, changed("job1.out")) or (place / "job1.out").read_bytes() != b"mine" or (place / "job0.out").exists():
        raise Failed(f"a golden file that changes: {found}")


def try_lists(rvtest, top, lists, seed):
    """Tries lists side by side, and every fourth with --check before; what is wrong with the first that fails."""
    def one(number):
        place = top / f"list{number}"
        place.mkdir()
        try:
            try_list(rvtest, place, f"{seed}-{number}", number % 4 == 0)
        except Failed as why:
            return f"list {number} of seed {seed}, in {place}: {why}"
        shutil.rmtree(place)
        return ""
    with concurrent.futures.ThreadPoolExecutor(len(os.sched_getaffinity(0))) as pool:
        for wrong in pool.map(one, range(lists)):
            if wrong:
                raise Failed(wrong)


def main(rvtest, shim, folder, lists, seed):
    top = pathlib.Path(folder)
    try:
        try_lists(rvtest, top, int(lists), seed)
        print(f"accepts: {lists} lists whose expectations were turned pass behind accept, which then changes nothing")
        changes = try_kills(rvtest, shim, top, "KILLED_CHANGE")
        print(f"accepts: killed before each of {changes} changes of a disk, files are old or new, and the next call ends the work")
        writes = try_kills(rvtest, shim, top, "KILLED_WRITE")
        print(f"accepts: killed before each of {writes} writes, the same")
        try_changed_list(rvtest, top)
        try_changed_golden_file(rvtest, top)
        print("accepts: a list or a golden file that changes in between is told, and nothing is written")
        try_shared(rvtest, top)
        print("accepts: of two lists that share a golden file each is accepted by itself")
    except Failed as why:
        sys.exit(f"accepts: {why}")


if __name__ == "__main__":
    main(*sys.argv[1:])
