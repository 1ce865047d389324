"""Callgrind's text of profiles, with addresses and lines, which kcachegrind and callgrind_annotate read
(valgrind's manual, "Callgrind Format Specification")."""
import bisect
import collections
import itertools
from typing import NamedTuple

from .lines import UNKNOWN

HEAD = ("# callgrind format", "version: 1", "creator: rvtest", "positions: instr line", "events: Steps")


class Call(NamedTuple):
    """The calls of one function by another: how many there were, and the steps below them, each once however deep a recursion is."""

    count: int
    steps: int


def calls_of(spots):
    """The calls by caller and function."""
    below = collections.Counter()
    for functions, (_, steps) in spots.items():
        for depth in range(len(functions)):
            below[functions[:depth + 1]] += steps
    counts, inner = collections.Counter(), collections.Counter()
    for functions, (arrivals, _) in spots.items():
        if len(functions) > 1:
            pair = functions[-2:]
            counts[pair] += arrivals
            if pair not in itertools.pairwise(functions[:-1]):
                inner[pair] += below[functions]
    return {pair: Call(counts[pair], inner[pair]) for pair in sorted(counts)}


def steps_by_function(image):
    """Of each function its addresses with their steps. Where they are not the function's steps, since an address that no symbol covers
    stands behind it, all of its steps stand at its first address."""
    starts = sorted(image.names)
    addresses = collections.defaultdict(dict)
    for address, (begun, _) in image.counts.items():
        place = bisect.bisect_right(starts, address)
        if place:
            addresses[starts[place - 1]][address] = begun
    own = collections.Counter()
    for functions, (_, steps) in image.spots.items():
        own[functions[-1]] += steps
    return {it: addresses[it] if sum(addresses[it].values()) == own[it] else {it: own[it]} for it in starts}


class Text:
    """The text of one image."""

    def __init__(self, image, lines):
        self.image, self.lines = image, lines
        self.calls = calls_of(image.spots)
        self.steps = steps_by_function(image)

    def place(self, address):
        """The file and the line of an address."""
        file, line = self.lines.at(address)
        return file or UNKNOWN, line

    def text(self):
        yield from ("", f"ob={self.image.path}")
        for function in self.steps:
            yield from self.function(function)

    def function(self, function):
        """The lines of a function: its own steps by address, and then its calls, all of which stand at its first line."""
        home, first = self.place(function)
        yield from ("", f"fl={home}", f"fn={self.image.names[function]}")
        file = home
        for address, steps in self.steps[function].items():
            now, line = self.place(address)
            if now != file:
                file = now
                yield f"{'fe' if file == home else 'fi'}={file}"
            yield f"{address:#x} {line} {steps}"
        if file != home:
            yield f"fe={home}"
        for (caller, called), call in self.calls.items():
            if caller == function:
                there, line = self.place(called)
                yield from (f"cfi={there}", f"cfn={self.image.names[called]}", f"calls={call.count} {called:#x} {line}")
                yield f"{function:#x} {first} {call.steps}"


def callgrind(pairs):
    """Callgrind's text of images, each with the lines of its file."""
    total = sum(steps for image, _ in pairs for _, steps in image.spots.values())
    yield from (*HEAD, f"summary: {total}")
    for image, lines in pairs:
        yield from Text(image, lines).text()
    yield from ("", f"totals: {total}")
