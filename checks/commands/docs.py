#!/usr/bin/env python3
"""Whether the pages are true of the sources, as far as a script can tell.

    checks/commands/docs.py [--no-run] [PAGE..]     all pages, or these alone; --no-run leaves out the commands

Of each page (*.md) it asks that
  - paths in backticks exist, and links with their anchors resolve; NAME, CRATE and the like stand for any name, and what a build leaves in
    `out` is not looked for;
  - each crate is one of crates.txt, `crate::path::name` is a name of that crate's sources, and so is `name` in "`name` (`crate`)" and in a
    table with the columns Call and Crate, where the crate must define it; `name` in "`name` in `path`" is a word of that file, and every
    other identifier in backticks stands in some file;
  - quoted code (```rust) and quoted signatures (`fn ..`) stand in the crates' code, whatever their spaces are;
  - a number behind <!-- count: NAME --> is that of the repository, and so is a number of crates, edits, test
    functions, commands, and rows of `checks/tables`; and a number of the jobs and programs of a list, of engines, and of the lists in
    `examples`. Numbers up to twelve may stand as words.
Of the pages of PAGES it asks that every name in backticks is a word of some file, and that no sentence is longer than LONGEST. What stands
below the heading of PAST names what is gone, and counts nowhere.
Of docs/PROMISES.md it asks that the external crates which it lists as trusted are those of crates.txt, and that its table of calls that may
wait has each public call whose bounds let it wait. Then it asks that docs/rooms.svg is what docs/rooms.py draws. The lines `$ ..` of the
pages of RUN are run, and what they print is compared: `..` alone on a line stands for lines left out, and /tmp for a folder that is taken
away.

A line a page goes to standard output where all is well, and else to standard error, with a line for each thing that is wrong. The status
is 1 where something is.
"""
import argparse
import fnmatch
import os
import pathlib
import re
import subprocess
import sys
import tempfile

TOP = next(folder for folder in pathlib.Path(__file__).resolve().parents if (folder / "crates.txt").exists())
sys.path.insert(0, str(TOP / "checks" / "lib"))

import markdown  # noqa: E402
import promised  # noqa: E402
from facts import Facts  # noqa: E402

# Pages that must be there, and whose names and sentences are looked at most closely.
PAGES = [
    "README.md",
    "CONTRIBUTING.md",
    "docs/TUTORIAL.md",
    "docs/RUNNER.md",
    "docs/LISTS.md",
    "docs/RUN.md",
    "docs/EXPLAIN.md",
    "docs/REPORTS.md",
    "docs/CI.md",
    "docs/COVERAGE.md",
    "docs/PROFILE.md",
    "docs/COUNTS.md",
    "docs/ACCEPT.md",
    "docs/GLOSSARY.md",
    "docs/CONTRACTS.md",
    "docs/ARCHITECTURE.md",
    "docs/DEFINITIONS.md",
    "docs/PROMISES.md",
    "docs/DECISIONS.md",
    "docs/PERFORMANCE.md",
    "crates/*/README.md",
]
# The most words of a sentence.
LONGEST = 45
# Pages whose commands are run, in this order: a later one may use what an earlier one wrote.
RUN = [
    "README.md", "docs/TUTORIAL.md", "docs/LISTS.md", "docs/RUN.md", "docs/EXPLAIN.md", "docs/RUNNER.md", "docs/REPORTS.md",
    "docs/COVERAGE.md", "docs/PROFILE.md", "docs/COUNTS.md", "docs/ACCEPT.md",
]
# What stands below this heading names what is gone.
PAST = "Names that changed"
PATH_ENDS = (".md", ".rt", ".antt", ".edit", ".bash", ".py", ".ld", ".sbatch", ".svg")
CRATE_FOLDERS = ("src", "specs", "proofs", "must-fail")
CRATE = re.compile(r"\b(?:rv_[a-z0-9_]+|rvtest_cli|rv(?:fleet|test)_app(?:_tests)?)\b")
NAME = r"[A-Za-z_][A-Za-z0-9_]*"
NAMED = re.compile(rf"{NAME}(?:::{NAME})*(?:\(\))?")
BESIDE = re.compile(r"((?:`[\w:]+`(?:, | and |, and ))*`[\w:]+`) \((?:the )?(?:crate )?`(rv\w+)`")
INSIDE = re.compile(r"((?:`[\w:]+`(?:, | and |, and )\s*)*`[\w:]+`)\s+in\s+(?:the\s+)?`([\w./-]+/[\w./-]+)`")
COUNTED = re.compile(r"<!-- count: ([\w-]+) -->\s*([\d,]+)")
SMALL = "no one two three four five six seven eight nine ten eleven twelve".split()
DIGITS = r"(?<![\w.,])(\d[\d,]*)"
NUMBER = r"(?<![\w.,])(\d[\d,]*|" + "|".join(SMALL) + ")"
COUNT_WORDS = [
    (re.compile(rf"{DIGITS} crates\b"), ("crates", "program-crates", "externals")),
    (re.compile(rf"{DIGITS} (?:must-fail )?edits\b"), ("edits",)),
    (re.compile(rf"{DIGITS} test functions\b"), ("tests",)),
    (re.compile(rf"{DIGITS} commands\b"), ("commands",)),
    (re.compile(rf"{DIGITS} rows (?:of|in) `checks/tables"), ("rows",)),
    (re.compile(rf"engines/README\.md\) has {NUMBER} engines\b"), ("engines",)),
    (re.compile(rf"`examples` \| {NUMBER} job lists\b"), ("lists",)),
]
# A list, how many jobs it has, and how many images these run.
JOBS = re.compile(rf"`([\w./-]+\.toml)` has {NUMBER} jobs(?: over {NUMBER} )?")


class Review:
    """A page beside the facts, and what is wrong with it."""

    def __init__(self, page, facts, pages):
        """The review of a page, before anything is asked."""
        self.page, self.facts, self.pages = page, facts, pages
        self.wrong = []
        self.asked = {"paths": 0, "links": 0, "names": 0, "quotes": 0, "counts": 0}
        self.past = next((block.line for block in page.blocks if block.kind == "heading" and PAST in block.text), sys.maxsize)

    def say(self, line, what):
        """Notes what is wrong at a line."""
        self.wrong.append(f"{self.page.path}:{line}: {what}")

    def folders(self):
        """The folders that a path of this page may be taken from."""
        own = os.path.dirname(self.page.path)
        return (own,) if own.startswith("crates/") else (own, "crates/*")

    def is_listed(self):
        """Whether the page is one of PAGES."""
        return any(fnmatch.fnmatch(self.page.path, name) for name in PAGES)

    # ---- paths and links

    def check_paths(self):
        """Each path in backticks exists."""
        for block in self.page.prose():
            for found in markdown.CODE.finditer(block.text):
                line = self.page.line_of(block, found.start())
                path = path_in(found[1])
                if path and line < self.past:
                    self.asked["paths"] += 1
                    if not self.has_path(path):
                        self.say(line, f"there is no {path}")

    def has_path(self, path):
        """Whether a path is there, or a file of its name where it has no slash."""
        if "/" in path:
            return self.facts.exists(path, self.folders())
        return any(fnmatch.fnmatch(os.path.basename(file), path) for file in self.facts.files)

    def check_links(self):
        """Each link leads to a file, and to an anchor that is there."""
        for block in self.page.prose():
            for found in markdown.LINK.finditer(block.text):
                line, target = self.page.line_of(block, found.start()), found[2]
                if re.match(r"[a-z]+:", target):
                    continue
                self.asked["links"] += 1
                path, _, anchor = target.partition("#")
                own = os.path.dirname(self.page.path)
                path = os.path.normpath(os.path.join(own, path)) if path else self.page.path
                if not (self.facts.top / path).exists():
                    self.say(line, f"the link {target} leads nowhere")
                elif anchor and anchor not in markdown.anchors_in(self.pages[path]):
                    self.say(line, f"{path} has no heading #{anchor}")
                elif not self.names_target(found[1], path):
                    self.say(line, f"the link to {path} is called {found[1]}, which is another file or none")

    def names_target(self, text, path):
        """Whether the text of a link, where it is a file's name or path, is that of its target."""
        if not re.fullmatch(r"[\w./-]+\.[a-z]{1,4}", text):
            return True
        names = [os.path.join(folder, text) for folder in ("", os.path.dirname(self.page.path))]
        return path in map(os.path.normpath, names) or ("/" not in text and os.path.basename(path) == text)

    # ---- names

    def check_names(self):
        """Each crate is one, and each identifier in backticks is a word of the sources."""
        for block in self.page.prose():
            if block.line >= self.past:
                continue
            for found in CRATE.finditer(block.text):
                if found[0] not in self.facts.crates and found[0] not in self.facts.vocabulary:
                    self.say(self.page.line_of(block, found.start()), f"there is no crate {found[0]}")
            for found in markdown.CODE.finditer(block.text):
                self.check_name(self.page.line_of(block, found.start()), found[1])
            for found in BESIDE.finditer(block.text):
                self.check_beside(self.page.line_of(block, found.start()), found)
            for found in INSIDE.finditer(block.text):
                self.check_inside(self.page.line_of(block, found.start()), found)

    def check_name(self, line, text):
        """An identifier is a word of the crate that it begins with, else of some file; pages of others may speak of other words."""
        if not NAMED.fullmatch(text):
            return
        parts = text.removesuffix("()").split("::")
        self.asked["names"] += 1
        crate = parts[0] if parts[0] in self.facts.crates else None
        words = self.facts.words_of(crate) if crate else self.facts.vocabulary
        missing = [part for part in parts[1 if crate else 0:] if part not in words]
        if not crate and not self.is_listed() and "_" not in text.strip("_"):
            return
        if missing and parts[0] not in self.facts.externals:
            self.say(line, f"no source of {crate or 'the repository'} has `{missing[0]}`")

    def check_inside(self, line, found):
        """What stands in a file, as in `name` in `path`, is a word of the file."""
        path = next((path for path in (f"{folder}/{found[2]}" for folder in self.folders()) if path in self.facts.files), found[2])
        for name in markdown.CODE.findall(found[1]):
            last = name.removesuffix("()").split("::")[-1]
            if path in self.facts.files and not re.search(rf"\b{re.escape(last)}\b", self.facts.read(path)):
                self.say(line, f"{path} has no `{last}`")

    def check_beside(self, line, found):
        """What stands beside a crate, as in `name` (`crate`), is a word of its sources."""
        crate = found[2]
        for name in markdown.CODE.findall(found[1]):
            last = name.removesuffix("()").split("::")[-1]
            if crate in self.facts.crates and name not in self.facts.crates and last not in self.facts.words_of(crate):
                self.say(line, f"{crate} has no `{last}`")

    def check_tables(self):
        """In a table with the columns Call and Crate, the crate of a row defines each call of it."""
        head = None
        for block in self.page.blocks:
            if block.kind != "row":
                head = None
            elif head is None:
                head = [cell.lower() for cell in markdown.cells_of(block.text)]
            elif "call" in head and "crate" in head and not markdown.is_rule(block.text):
                self.check_row(block, head)

    def check_row(self, block, head):
        """The crates of a row define its calls, each call one of them."""
        cells = markdown.cells_of(block.text)
        crates = markdown.CODE.findall(cells[head.index("crate")])
        for call in markdown.CODE.findall(cells[head.index("call")]):
            last = call.removesuffix("()").split("::")[-1]
            if NAMED.fullmatch(call) and not any(self.facts.defines(crate, last) for crate in crates):
                self.say(block.line, f"{' and '.join(crates) or 'no crate'} does not define `{call}`")

    # ---- quotations and counts

    def check_quotes(self):
        """Quoted code and quoted signatures stand in the crates' code."""
        for block in self.page.blocks:
            if block.kind == "code" and block.text.lstrip().startswith("```rust"):
                for part in re.split(r"\n\s*\n", block.text.split("\n", 1)[-1]):
                    self.check_quote(block.line, part)
            elif block.kind != "code":
                for found in markdown.CODE.finditer(block.text):
                    if re.match(r"(pub )?fn \w", found[1]):
                        self.check_quote(self.page.line_of(block, found.start()), found[1])

    def check_quote(self, line, text):
        """A text stands in the crates' code."""
        self.asked["quotes"] += 1
        if not self.facts.has_code(text):
            self.say(line, f"no code has: {' '.join(text.split())[:80]}")

    def check_counts(self):
        """Numbers of the repository are right."""
        counts = self.facts.counts
        for found in COUNTED.finditer(self.page.text):
            self.compare(found.start(), found[2], [counts.get(found[1])])
        plain = re.sub(r"```.*?```", lambda found: re.sub(r"[^\n]", " ", found[0]), self.page.text, flags=re.DOTALL)
        for found in JOBS.finditer(plain):
            text = self.facts.read(found[1]) if found[1] in self.facts.files else ""
            self.compare(found.start(), found[2], [len(re.findall(r"^\[\[job\]\]", text, re.MULTILINE))])
            if found[3]:
                self.compare(found.start(), found[3], [len(set(re.findall(r"^image = (.*)", text, re.MULTILINE)))])
        for pattern, names in COUNT_WORDS:
            for found in pattern.finditer(plain):
                if not COUNTED.search(plain[max(0, found.start() - 40):found.end()]):
                    self.compare(found.start(), found[1], [counts[name] for name in names])

    def compare(self, place, number, wanted):
        """A number is one of those that are wanted."""
        self.asked["counts"] += 1
        if (SMALL.index(number) if number in SMALL else int(number.replace(",", ""))) not in wanted:
            line = self.page.text.count("\n", 0, place) + 1
            self.say(line, f"{number} stands here, and the sources have {' or '.join(map(str, wanted))}")

    def rows_below(self, heading):
        """The cells of the rows of the page's tables whose first column has this heading."""
        head = None
        for block in self.page.blocks:
            if block.kind != "row":
                head = None
                continue
            cells = markdown.cells_of(block.text)
            if head and head[0] == heading:
                yield cells
            head = head or cells

    def check_trusted(self):
        """The page's table of external crates has those of crates.txt."""
        names = {name for cells in self.rows_below("External crate") for name in markdown.CODE.findall(cells[0])}
        if names != self.facts.externals:
            self.say(1, f"trusted crates: {sorted(names ^ self.facts.externals)} stand in one of this page and crates.txt")

    def check_waiting(self):
        """The page's table of calls that may wait has each public call whose bounds let it wait, with its crate."""
        told = {
            (crate, name) for cells in self.rows_below("Waiting call")
            for crate in markdown.CODE.findall(cells[1]) for name in markdown.CODE.findall(cells[0])
        }
        for crate, name in sorted(told ^ promised.waiting_calls()):
            self.say(1, f"{crate}::{name} may wait by one of this page and the sources, and not by the other")

    # ---- sentences

    def check_sentences(self):
        """No sentence is too long to be read once."""
        for block in self.page.prose():
            for text in markdown.cells_of(block.text) if block.kind == "row" else [block.text]:
                for sentence in markdown.sentences_in(text):
                    if len(sentence) > LONGEST and block.line < self.past:
                        self.say(block.line, f"a sentence of {len(sentence)} words, {LONGEST} at most: {' '.join(sentence[:8])} ..")

    def check(self):
        """Asks everything but the commands."""
        self.check_paths()
        self.check_links()
        self.check_names()
        self.check_tables()
        self.check_quotes()
        self.check_counts()
        if self.page.path == "docs/PROMISES.md":
            self.check_trusted()
            self.check_waiting()
        if self.is_listed():
            self.check_sentences()

    def summary(self):
        """The line of the page."""
        asked = ", ".join(f"{count} {name}" for name, count in self.asked.items() if count)
        return f"{self.page.path}: {asked or 'nothing to ask'}"


def path_in(code):
    """The path that a text in backticks is, if it looks like one. Words in capitals are stars."""
    word = code.split()[0] if code.split() else ""
    if not re.fullmatch(r"[\w./*-]+", word) or word.startswith(("/", "..", "-")):
        return None
    word = word.removeprefix("./")
    starred = re.sub(r"\b[A-Z][A-Z_]+\b(?!\.md)", "*", word) if word not in ("HANDLES", "VERSION") else word
    if "/" in word and word.split("/")[0] in TOPS:
        return None if "out" in word.split("/") else starred
    return starred if "/" not in word and word.endswith(PATH_ENDS) and not word.startswith(".") else None


# The folders that a path of the repository begins with.
TOPS = {".ci", "bench", "checks", "crates", "docs", "engines", "examples", "firmware", "packaging", "programs", *CRATE_FOLDERS}


# ---- commands

def has_programs(facts):
    """Whether both programs are there, so that none is built for this."""
    found = subprocess.run(
        ["bash", "-c", "source ./launch.bash && program rvtest && program rvfleet"], cwd=facts.top, capture_output=True, check=False
    )
    return found.returncode == 0


def commands_of(page):
    """The commands of a page, each with its line and the lines that it prints."""
    for block in page.blocks:
        lines = [line.strip() if line.startswith("    $") else line.removeprefix("    ") for line in block.text.split("\n")]
        if block.kind != "code" or not any(line.startswith("$ ") for line in lines):
            continue
        command = None
        for at, line in enumerate(lines):
            if line.startswith("$ "):
                if command:
                    yield command
                command = (block.line + at, line[2:], [])
            elif command and not line.startswith("```"):
                command[2].append(line.rstrip())
        yield command


def is_as_told(told, lines):
    """Whether lines are those that are told, where `..` stands for lines left out."""
    while told and not told[-1]:
        told = told[:-1]
    if not told:
        return not lines
    if told[0] == "..":
        return any(is_as_told(told[1:], lines[at:]) for at in range(len(lines) + 1))
    return bool(lines) and told[0] == lines[0] and is_as_told(told[1:], lines[1:])


def run_commands(review, folder):
    """Runs a page's commands, and compares what they print."""
    count = 0
    for line, command, told in commands_of(review.page):
        ran = subprocess.run(
            ["bash", "-c", command.replace("/tmp/", f"{folder}/")],
            cwd=review.facts.top, stdout=subprocess.PIPE, stderr=subprocess.STDOUT, stdin=subprocess.DEVNULL, text=True, check=False,
        )
        printed = ran.stdout.replace(f"{folder}/", "/tmp/").split("\n")
        printed = [text.rstrip() for text in printed[:-1] if not printed[-1]] or printed
        count += 1
        if not is_as_told(told, [] if printed == [""] else printed):
            review.say(line, f"`{command}` prints otherwise: {' / '.join(printed[:6])[:200]}")
    return count


def check_commands(reviews, facts):
    """Runs the commands of the pages that have some; says where there is no program."""
    told = [review for path in RUN for review in reviews if review.page.path == path]
    if not has_programs(facts):
        for review in told:
            review.say(1, "there is no program to run its commands: build one, or set RVFLEET_BIN")
        return
    with tempfile.TemporaryDirectory() as work:
        for review in told:
            review.asked["commands"] = run_commands(review, work)


def is_drawn(facts):
    """Whether the picture of the crates is that of crates.txt."""
    return subprocess.run([sys.executable, "docs/rooms.py", "--check"], cwd=facts.top, capture_output=True, check=False).returncode == 0


def main():
    """Asks all pages, or those that are named, and gives the status."""
    reader = argparse.ArgumentParser(description=__doc__, formatter_class=argparse.RawDescriptionHelpFormatter)
    reader.add_argument("--no-run", action="store_true")
    reader.add_argument("pages", nargs="*")
    words = reader.parse_args()
    facts = Facts(TOP)
    pages = {path: markdown.read_page(path, facts.read(path)) for path in facts.files if path.endswith(".md")}
    unknown = [path for path in words.pages if path not in pages]
    if unknown:
        reader.error(f"there is no page {unknown[0]}")
    reviews = [Review(pages[path], facts, pages) for path in words.pages or pages]
    for review in reviews:
        review.check()
    if not words.no_run:
        check_commands(reviews, facts)
    if not words.pages and not is_drawn(facts):
        reviews[0].say(1, "docs/rooms.svg is of another crates.txt: run docs/rooms.py")
    missing = [] if words.pages else [name for name in PAGES if not any(fnmatch.fnmatch(path, name) for path in pages)]
    for review in reviews:
        print(review.summary(), file=sys.stderr if review.wrong else sys.stdout)
        for line in review.wrong:
            print(line, file=sys.stderr)
    for name in missing:
        print(f"checks/commands/docs.py: there is no {name}", file=sys.stderr)
    return 1 if missing or any(review.wrong for review in reviews) else 0


if __name__ == "__main__":
    sys.exit(main())
