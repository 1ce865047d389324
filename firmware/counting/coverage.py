"""Coverage: what each line, each branch and each function of the sources counts, and lcov's text of it.

- A line counts, for each instance of it, the most that an address of it was begun, and then the sum of its instances. An instance is
  the function that the code stands in, with the calls that were inlined on the way there.
- A line without code of its own counts, for each function, the most of the addresses at which it begins: another line's code stands
  there. A line with code of its own counts that alone.
- The Nth conditional branch of a line in an instance is the Nth of each, summed over instances and images.
"""
import collections
import fnmatch
import re

from .lines import UNKNOWN

BRANCH = re.compile(r"(c\.)?b(eq|ne|lt|ge|gt|le)(u|z)?")


class Source:
    """What is known of a file: lines' counts, branches' BEGUN and TAKEN by line and ordinal, functions' lines and counts."""

    def __init__(self):
        self.lines = collections.Counter()
        self.branches = collections.defaultdict(lambda: [0, 0])
        self.functions = {}

    def add_function(self, name, line, count):
        before = self.functions.get(name, (line, 0))
        self.functions[name] = min(before[0], line), before[1] + count

    def text(self, path):
        """The lines of lcov's text of it."""
        functions = sorted(self.functions.items(), key=lambda it: (it[1][0], it[0]))
        yield from ("TN:", f"SF:{path}")
        yield from (f"FN:{line},{name}" for name, (line, _) in functions)
        yield from (f"FNDA:{count},{name}" for name, (_, count) in functions)
        yield from (f"FNF:{len(functions)}", f"FNH:{sum(count > 0 for _, (_, count) in functions)}")
        ways = [(line, 2 * order + way, count, begun) for (line, order), (begun, taken) in sorted(self.branches.items())
                for way, count in ((0, taken), (1, begun - taken))]
        yield from (f"BRDA:{line},0,{number},{count if begun else '-'}" for line, number, count, begun in ways)
        yield from (f"BRF:{len(ways)}", f"BRH:{sum(count > 0 for _, _, count, _ in ways)}")
        yield from (f"DA:{line},{count}" for line, count in sorted(self.lines.items()))
        yield from (f"LF:{len(self.lines)}", f"LH:{sum(count > 0 for count in self.lines.values())}", "end_of_record")


class Coverage:
    """The coverage of images, by source, and how many counts have no place in any: the image, and why."""

    def __init__(self):
        self.sources = collections.defaultdict(Source)
        self.lost = collections.Counter()

    def add(self, image, file):
        """Adds what was counted of an image, whose file is given."""
        code = file.instructions()
        chains = file.chains(code)
        most = collections.defaultdict(collections.Counter)
        for address, (begun, _) in image.counts.items():
            if address not in code:
                self.lost[image.path, "run, and no code of the file"] += begun
        self.add_code(image, file, code, chains, most)
        own = set(most)
        for row in (row for rows in file.lines.sequences for row in rows):
            if row.begins and not row.ends and row.line and row.address in code and (row.file, row.line) not in own:
                count_most(most[row.file, row.line], chains[row.address][-1][0], begun_at(image, row.address))
        for (path, line), instances in most.items():
            self.sources[path].lines[line] += sum(instances.values())
        for address, name, line in file.functions():
            path, own = file.lines.at(address)
            if address in code and own:
                self.sources[path].add_function(name, line, begun_at(image, address))

    def add_code(self, image, file, code, chains, most):
        """Counts each instruction for its line: the most of each instance, and its branches."""
        order = collections.Counter()
        for address, word in code.items():
            path, line = file.lines.at(address)
            begun, taken = image.counts.get(address, (0, 0))
            if line == 0 or path == UNKNOWN:
                self.lost[image.path, "run, with no line"] += begun
                continue
            instance = instance_of(chains[address])
            count_most(most[path, line], instance, begun)
            if BRANCH.fullmatch(word):
                ways = self.sources[path].branches[line, order[path, line, instance]]
                order[path, line, instance] += 1
                ways[0] += begun
                ways[1] += taken

    def text(self, globs):
        """lcov's text of the sources whose path is of one of the globs; without globs, of all."""
        for path in sorted(self.sources):
            if not globs or any(fnmatch.fnmatchcase(path, it) for it in globs):
                yield from self.sources[path].text(path)


def begun_at(image, address):
    return image.counts.get(address, (0, 0))[0]


def instance_of(chain):
    """The function that code stands in, and the calls that were inlined on the way there."""
    return chain[-1][0], *chain[1:]


def count_most(instances, instance, count):
    """An instance counts the most of its addresses; one that was never begun is there, too."""
    instances[instance] = max(instances[instance], count)
