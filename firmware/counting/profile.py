"""Profiles: where the steps of an image went, by function and by the calls on the way there.

A spot is a list of functions, outermost first: those whose calls had not returned, and the one that ran. Its steps began there, and its
arrivals are the calls and jumps that came to it.
"""
import collections
import os
from typing import NamedTuple


class Amounts(NamedTuple):
    """Of a function: the steps that began in it; those that began while it was on the list, each once; and how often it was come to."""

    own: int
    inclusive: int
    arrivals: int


def amounts_of(spots):
    """The amounts of each function."""
    own, inclusive, arrivals = collections.Counter(), collections.Counter(), collections.Counter()
    for functions, (come_to, steps) in spots.items():
        own[functions[-1]] += steps
        arrivals[functions[-1]] += come_to
        for function in set(functions):
            inclusive[function] += steps
    return {it: Amounts(own[it], inclusive[it], arrivals[it]) for it in inclusive}


def flat(image):
    """The lines of an image's profile by function, the greatest first."""
    amounts = amounts_of(image.spots)
    total = sum(it.own for it in amounts.values())
    yield f"{image.path}: {total} steps"
    yield "         own       %    inclusive       %      calls  function"
    for function, it in sorted(amounts.items(), key=lambda it: (-it[1].own, -it[1].inclusive, it[0])):
        yield (f"{it.own:12} {percent(it.own, total)} {it.inclusive:12} {percent(it.inclusive, total)} {it.arrivals:10}  "
               f"{image.names[function]}")


def percent(part, total):
    """A share in hundredths of a percent, to the nearest."""
    hundredths = (20_000 * part + total) // (2 * total) if total else 0
    return f"{hundredths // 100:3}.{hundredths % 100:02}%"


def folded(image):
    """The folded stacks of an image, as flame graphs are made of: the functions, outermost first, and the steps."""
    name = os.path.basename(image.path)
    steps = collections.Counter()
    for functions, (_, count) in image.spots.items():
        steps[";".join([name, *(image.names[it] for it in functions)])] += count
    for stack, count in sorted(steps.items()):
        if count:
            yield f"{stack} {count}"
