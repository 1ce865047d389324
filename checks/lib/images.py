#!/usr/bin/env python3
"""Images for checks and measurements: ELF files by lines of words, and by what their runs come to.

    checks/lib/images.py WORDS >FILE           the file that the words stand for
    checks/lib/images.py --flat NUMBERS >FILE  the bytes of the numbers alone
    checks/lib/images.py --of FILE >FILE       the file whose one segment has the bytes of a flat image

`one` or `two` segments, `sign` for the image with a signature (files of checks/images), or the example firmware, `checksum`, `upper` or
`stripped`, which is `upper` without symbols; and then changes: `24=90000000` puts the number at byte 24, little-endian, and `51` keeps
the first 51 bytes. Behind `code`, or alone, stand numbers, which are the bytes of the one segment. Behind an `@` stand symbols, as
`main=80000010/12/0001`: a name, its value, `st_info` and the index of its section; and behind a `!` changes of all that.
"""
import pathlib
import struct
import sys

SAMPLES = pathlib.Path(__file__).resolve().parents[1] / "images"
FIRMWARE = SAMPLES.parents[1] / "examples/firmware"
FILES = {
    "one": SAMPLES / "one.elf", "two": SAMPLES / "two.elf", "sign": SAMPLES / "sign.elf", "stripped": SAMPLES / "stripped.elf",
    "checksum": FIRMWARE / "checksum.elf", "upper": FIRMWARE / "upper.elf",
}

BASE = 0x8000_0000
# Where the signature of a made image stands.
SIGNATURE = 0x8000_1000
# How many steps a job may take where it is to use them up.
BUDGET = 99

# 93 into a7, and ECALL: the exit call, with the code in a0.
EXIT = bytes.fromhex("9308d00573000000")
# 0x10000000, the console, into t0; and a byte from t1 to it.
TO_CONSOLE = 0x100002b7
PUT = 0x0062a023
# One less in t2; and three instructions back unless it is zero.
LESS = 0xfff38393
BACK = 0xfe039ce3
# From how many bytes on a console of one byte is put by a loop.
LONG = 1000
# A jump to itself; no instruction; ebreak; and a load from 0x10.
ENDS = {"budget": 0x0000006f, "illegal": 0, "breakpoint": 0x00100073, "load-access": 0x01002503}
VALUES = {"illegal": 0, "load-access": 0x10}


IMAGES = {word: path.read_bytes() for word, path in FILES.items()}


# ---- parts of files

def header(entry, programs, segments, sections=0, count=0):
    """The header of an executable: its entry, and of its program headers and its section headers the place and the number."""
    fields = struct.pack("<HHIIIIIHHHHHH", 2, 243, 1, entry, programs, sections, 0, 52, 32, segments, 40, count, 0)
    return b"\x7fELF\x01\x01\x01" + bytes(9) + fields


def segment(offset, address, size):
    """A program header of bytes that are loaded where they run."""
    return struct.pack("<8I", 1, offset, address, address, size, size, 7, 4)


def section(kind, offset, size, link=0, info=0, align=0, entsize=0):
    """A section header, of a section at a place of the file."""
    return struct.pack("<10I", 0, kind, 0, 0, offset, size, link, info, align, entsize)


def entry_of(name_at, value, info=0, section_at=0):
    """A symbol table's entry of a name at a place of the strings."""
    return struct.pack("<IIIBBH", name_at, value, 0, info, 0, section_at)


# ---- files

def numbers(text):
    """The bytes of numbers that spaces part, each little-endian: `0001*3` is three times 0001, and `X` the exit call."""
    data = b""
    for word in text.split():
        if word == "X":
            data += EXIT
        else:
            digits, _, count = word.partition("*")
            data += bytes.fromhex(digits)[::-1] * int(count or 1)
    return data


def changed(data, changes):
    """A file with changes, each of which lies in it."""
    for change in changes.split():
        at, is_field, number = change.partition("=")
        if is_field:
            field, end = numbers(number), int(at) + len(numbers(number))
            if end > len(data):
                raise ValueError(f"{change}: the file has {len(data)} bytes")
            data = data[:int(at)] + field + data[end:]
        else:
            data = data[:int(at)]
    return data


def program(code):
    """The file whose one segment has these bytes."""
    return header(BASE, 52, 1) + segment(84, BASE, len(code)) + code


def with_symbols(data, symbols):
    """A file with a symbol table, a string table and their section headers behind it, of names with their fields as numbers."""
    table, strings = bytes(16), b"\0"
    for name, value, info, section_at in symbols:
        table += entry_of(len(strings), value, info, section_at)
        strings += name + b"\0"
    names_at = len(data) + len(table)
    headers = bytes(40) + section(2, len(data), len(table), 2, 0, 4, 16) + section(3, names_at, len(strings), align=1)
    data = changed(data, f"32={names_at + len(strings):08x} 46=0028 48=0003")
    return data + table + strings + headers


def symbol(word):
    """A symbol's name and its fields, by a word."""
    name, _, fields = word.partition("=")
    return name.encode(), *(int(field, 16) for field in fields.split("/"))


def image(words):
    """The file that a line of words stands for."""
    words, _, changes = words.partition(" ! ")
    words, _, symbols = words.partition(" @ ")
    name, _, rest = words.partition(" ")
    if name in IMAGES:
        data = changed(IMAGES[name], rest)
    else:
        data = program(numbers(rest if name == "code" else words))
    if symbols:
        data = with_symbols(data, map(symbol, symbols.split()))
    return changed(data, changes)


def steps_text(steps):
    return f"{steps} step{'s' * (steps != 1)}"


def exit_text(code):
    """An exit code as people see it: a negative one with its sign."""
    return f"{code}" if code < 2**31 else f"{code - 2**32} ({code})"


def run_of(console, end):
    """Code that puts bytes to the console and ends as a word says, and what its run comes to, as a row's line tells it."""
    code, steps = put_of(console)
    if end == "budget":
        return words_of([*code, ENDS[end]]), f"budget used up after {steps_text(BUDGET)}"
    if end in ENDS:
        place = BASE + 4 * len(code)
        told = f"fault {end} at {place:08x}, value {VALUES.get(end, 0):08x}, after {steps_text(steps)}"
        return words_of([*code, ENDS[end]]), told
    code.append((int(end) & 0xFFF) << 20 | 0x513)
    # The instruction of the exit call that ends the run is no step.
    return words_of(code) + EXIT, f"exit {exit_text(int(end))} after {steps_text(steps + 2)}"


def put_of(console):
    """The instructions that put bytes to the console, and how many steps they take."""
    if len(console) >= LONG and len({*console}) == 1:
        code = [TO_CONSOLE, console[0] << 20 | 0x313, *loading(7, len(console)), PUT, LESS, BACK]
        return code, 4 + 3 * len(console)
    code = [TO_CONSOLE] * bool(console)
    for byte in console:
        code += [byte << 20 | 0x313, PUT]
    return code, len(code)


def words_of(words):
    """The bytes of words, as they stand in memory."""
    return struct.pack(f"<{len(words)}I", *words)


def with_signature(code, words):
    """The file of the code, and of the words as the signature between the symbols x and y."""
    room = SIGNATURE - BASE
    if len(code) > room:
        raise ValueError("the code reaches into the signature")
    data = program(code.ljust(room, b"\0") + words_of(words))
    ends = [(b"x", SIGNATURE), (b"y", SIGNATURE + 4 * len(words))]
    return with_symbols(data, [(name, value, 0x10, 0xfff1) for name, value in ends])


def elf(entry, parts):
    """The file with this entry and a segment for each part, which is an address and the bytes there."""
    data = header(entry, 52, len(parts))
    place = len(data) + 32 * len(parts)
    for address, code in parts:
        data += segment(place, address, len(code))
        place += len(code)
    return data + b"".join(code for _, code in parts)


def loading(register, value):
    """LUI and ADDI that give a register a value."""
    upper, lower = (value + 0x800) >> 12 & 0xfffff, value & 0xfff
    return [upper << 12 | register << 7 | 0x37, lower << 20 | register << 15 | register << 7 | 0x13]


# ---- the command

def main(words):
    if len(words) == 2 and words[0] == "--flat":
        data = numbers(words[1])
    elif len(words) == 2 and words[0] == "--of":
        data = program(pathlib.Path(words[1]).read_bytes())
    elif len(words) == 1 and not words[0].startswith("-"):
        data = image(words[0])
    else:
        sys.exit("usage: images.py WORDS | --flat NUMBERS | --of FILE")
    sys.stdout.buffer.write(data)


if __name__ == "__main__":
    main(sys.argv[1:])
