"""Tables of counts, as `rvtest run --counts` writes them: their reader, which takes no other text, and their sum. What is refused, and by
which words, is as with `rvtest counts`."""
import re
from typing import NamedTuple

from listing.files import Refused

HEAD = "rvcounts 1"
NUMBER = "(0|[1-9][0-9]{0,19})"
IMAGE = re.compile("image ([0-9a-f]{64}) (.*)")
COUNT = re.compile(f"([0-9a-f]{{8}}) {NUMBER} {NUMBER}")
SPOT = re.compile(f"spot {NUMBER} ([0-9a-f]{{8}}) {NUMBER} {NUMBER} (.*)")
DONE = re.compile(f"done {NUMBER} {NUMBER}")
MOST = 2**64 - 1


class Image(NamedTuple):
    """An image: its digest and path, of each address BEGUN and TAKEN, the names of the functions of its stacks, and of each list of
    functions, by rising lists, ARRIVALS and STEPS."""

    digest: str
    path: str
    counts: dict
    names: dict
    spots: dict


class Reader:
    """Takes the lines of a table one after another: the images, and how many runs there are, once the last line is taken."""

    def __init__(self):
        self.images = []
        self.begun = False
        self.runs = None

    def takes(self, line):
        """Whether a table goes on by a line, which is taken then."""
        if not self.begun:
            self.begun = line == HEAD
            return self.begun
        for form, take in self.lines():
            found = form.fullmatch(line)
            if found and self.runs is None:
                return take(*found.groups())
        return False

    def lines(self):
        """Each form of a line, and what takes it."""
        return (COUNT, self.takes_count), (SPOT, self.takes_spot), (IMAGE, self.takes_image), (DONE, self.takes_done)

    def takes_image(self, digest, path):
        if self.images and digest <= self.images[-1].digest:
            return False
        self.images.append(Image(digest, path, {}, {}, {}))
        return True

    def takes_count(self, address, begun, taken):
        if not self.images or self.images[-1].spots:
            return False
        counts = self.images[-1].counts
        place, begun, taken = int(address, 16), int(begun), int(taken)
        if place % 2 or counts and place <= next(reversed(counts)) or not 0 < begun <= MOST or taken > begun:
            return False
        counts[place] = begun, taken
        return True

    def takes_spot(self, depth, function, arrivals, steps, name):
        if not self.images:
            return False
        names, spots = self.images[-1].names, self.images[-1].spots
        front = next(reversed(spots)) if spots else ()
        depth, arrivals, steps = int(depth), int(arrivals), int(steps)
        path = (*front[:depth], int(function, 16))
        if depth > len(front) or path[:-1] != front[:depth] or path <= front or not 0 < arrivals <= MOST or steps > MOST:
            return False
        spots[path] = arrivals, steps
        return names.setdefault(path[-1], name) == name

    def takes_done(self, images, runs):
        if int(images) != len(self.images) or int(runs) > MOST:
            return False
        self.runs = int(runs)
        return True


def file_at(path):
    """The bytes of a file, which must be there."""
    try:
        with open(path, "rb") as file:
            return file.read()
    except OSError as error:
        raise Refused(f"{path}: {error.strerror}") from None


def text_of(line):
    """A line's text, or None where it is not UTF-8."""
    try:
        return line.decode()
    except UnicodeDecodeError:
        return None


def table_at(path):
    """The images of a table, and how many runs it is of."""
    *lines, rest = file_at(path).split(b"\n")
    reader = Reader()
    for number, line in enumerate(lines, 1):
        text = text_of(line)
        if text is None or not reader.takes(text):
            raise wrong_line(path, number)
    if reader.runs is None:
        raise Refused(f"{path}: the table is truncated")
    if rest:
        raise wrong_line(path, len(lines) + 1)
    return reader.images, reader.runs


def wrong_line(path, number):
    return Refused(f"{path}:{number}: invalid line in a table of counts")


def sum_of(paths):
    """The images of all tables, each once, its numbers added up; by rising digest."""
    all_images, all_runs = {}, 0
    for path in paths:
        images, runs = table_at(path)
        all_runs += runs
        if all_runs > MOST:
            raise Refused(f"{path}: the number of runs does not fit in 64 bits")
        for image in images:
            before = all_images.get(image.digest)
            all_images[image.digest] = added(before, image, path) if before else image
    return [all_images[digest] for digest in sorted(all_images)]


def added(first, second, path):
    """The sum of one image's numbers in two tables, of which the second is at a path; the lesser of the image's paths is taken."""
    counts = dict(first.counts)
    for address, (begun, taken) in second.counts.items():
        before = counts.get(address, (0, 0))
        counts[address] = before[0] + begun, before[1] + taken
        if counts[address][0] > MOST:
            raise Refused(f"{path}: the count at {address:08x} does not fit in 64 bits")
    names = dict(first.names)
    for function, name in sorted(second.names.items()):
        if names.setdefault(function, name) != name:
            raise Refused(f"{path}: the function at {function:08x} has two names in one image")
    spots = dict(first.spots)
    for functions, numbers in second.spots.items():
        spots[functions] = tuple(a + b for a, b in zip(numbers, spots.get(functions, (0, 0))))
        if max(spots[functions]) > MOST:
            raise Refused(f"{path}: a stack count of the function at {functions[-1]:08x} does not fit in 64 bits")
    return Image(first.digest, min(first.path, second.path), *(dict(sorted(it.items())) for it in (counts, names, spots)))
