"""The outcome of a run as text, and how two texts differ."""
import difflib

# How many lines of a difference are shown, and how many characters of a line.
MOST_LINES = 40
MOST_CHARACTERS = 300


def outcome(status, out, errors):
    """A status, standard output and standard error as one text."""
    return "\n".join([f"status {status}", *stream("standard output", out), *stream("standard error", errors)])


def stream(name, data):
    """The name of a stream and its lines, or nothing if it is empty."""
    text = data.decode("utf-8", "backslashreplace")
    end = [] if text.endswith("\n") else ["(no newline at the end)"]
    return [f"{name}:", *(f"  {line}" for line in text.removesuffix("\n").split("\n")), *end] if text else []


def unequal(what, expected, actual):
    """A message with the lines in which two texts differ, and some lines around them."""
    lines = list(difflib.unified_diff(expected.split("\n"), actual.split("\n"), n=3, lineterm=""))[2:]
    kept = [short(line) for line in lines if not line.startswith("@@")]
    more = [f"  .. {len(kept) - MOST_LINES} more lines"] if len(kept) > MOST_LINES else []
    return "\n".join([what, "- expected, + actual:", *kept[:MOST_LINES], *more])


def printable(text):
    """A line with an escape for each character that cannot be shown."""
    return "".join(char if char.isprintable() else char.encode("unicode_escape").decode() for char in text)


def short(line):
    """A line, cut off if it is long."""
    return line if len(line) <= MOST_CHARACTERS else f"{line[:MOST_CHARACTERS]}.. ({len(line)} characters)"
