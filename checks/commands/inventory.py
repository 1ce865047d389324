#!/usr/bin/env python3
"""What the repository promises and tries, as sorted lines, so that a move or a rename loses nothing.

    checks/commands/inventory.py write FILE
    checks/commands/inventory.py compare OLD NEW [--names FILE]

`write` writes one line for each
  function     public, or of a trait: its path, its types, and the name and text of each clause
  inner        function that the crate keeps to itself (pub(crate), pub(super)), written alike
  definition   of specs/: its path and text
  lemma        of proofs/, but not of one function's proof: its path and what it states; of a definition its text
  edit         that must fail: its path, the file, and each old and new text
  row          of a table of checks/tables: the table, the comment above the row, and the row
  test         function marked #[test]: its path
`compare` shows each line of OLD that NEW has not (-), and each of NEW that OLD has not (+). The file of names has lines
`old -> new`: crates, modules, words, or paths of these. They are renamed in OLD first, as whole words, but not in rows. The
status is 1 where a line is left, and 2 where a file cannot be read.
"""
import argparse
import collections
import dataclasses
import pathlib
import re
import sys

TOP = pathlib.Path(__file__).resolve().parents[2]
sys.path.insert(0, str(TOP / "checks" / "lib"))

from items import CLAUSES, argument_type, clause_end, items, parts, source_of, spaced, type_name  # noqa: E402

# ---- code

def function_line(source, item, path):
    """A function's path, types and clauses."""
    words = source.words
    opening = item.keyword + 2
    while words[opening] != "(":
        opening += 1
    closing = source.ends[opening]
    generics = spaced(words[item.keyword + 2:opening])
    arguments = ", ".join(argument_type(part) for part in parts(source, opening + 1, closing))
    place = closing + 1
    while place < item.head_end and words[place] not in CLAUSES:
        place += 1
    line = [path, f"{generics}({arguments}) {spaced(words[closing + 1:place])}".strip()]
    while place < item.head_end:
        if words[place] in CLAUSES:
            end = clause_end(source, place)
            line.append(spaced(words[place:end]))
            place = end
        else:
            place += 1
    return " | ".join(line)


def lines_of_items(source, start, end, path, inside):
    """The lines of the functions and tests between two places. `inside` is `trait` or `impl .. for` where they stand in one."""
    for item in items(source, start, end):
        keyword = source.words[item.keyword]
        if keyword == "fn":
            name = f"{path}::{source.words[item.keyword + 1]}"
            if "#[test]" in item.marks:
                yield f"test | {name}"
            elif item.visibility == "pub" or inside:
                yield "function | " + function_line(source, item, name)
            elif item.visibility:
                yield "inner | " + function_line(source, item, name)
        elif keyword in ("mod", "impl", "trait") and source.words[item.head_end] == "{":
            head = source.words[item.keyword + 1:item.head_end]
            name = type_name(head) if keyword == "impl" else head[0]
            of_trait = keyword == "trait" or " as " in name
            yield from lines_of_items(source, item.head_end + 1, item.end - 1, f"{path}::{name}", of_trait)


def module_path(crate, file):
    """The path of the module that a file of code is."""
    names = list(file.relative_to(crate / "src").with_suffix("").parts)
    if names[-1] in ("lib", "main", "mod"):
        names.pop()
    return "::".join([crate.name, *names])


def code_lines(crate):
    """The lines of a crate's functions and tests."""
    for file in sorted(crate.glob("src/**/*.rt")):
        source = source_of(file.read_text())
        yield from lines_of_items(source, 0, len(source.words), module_path(crate, file), False)


# ---- definitions and lemmas

DECLARED = re.compile(r"""
    (?P<modifiers>(?:(?:pub|abbrev|unfoldable)\s+)*)
    (?:(?P<type>record|data)\s+(?P<type_name>\S+) | (?P<name>[^\s:]+)\s*:(?=\s|$))
""", re.X)
PASSED_OVER = re.compile(r"(use|mod|pub mod|pub use)\s")


@dataclasses.dataclass
class Declared:
    """A declaration: its name, its indent, whether its text counts whole, and its words."""
    name: str
    indent: int
    whole: bool
    words: list
    proof: bool = False

    def add(self, line):
        """Takes a line more, unless it is of a proof."""
        self.proof = self.proof or not self.whole and indent_of(line) <= self.indent
        if not self.proof:
            self.words += line.split()


def indent_of(line):
    """How far a line is indented."""
    return len(line) - len(line.lstrip())


def bare_lines(text):
    """The lines of a text that are neither empty nor comments, each without a comment at its end."""
    for line in text.splitlines():
        line = re.sub(r"(^|\s)--(\s.*)?$", "", line).rstrip()
        if line and not PASSED_OVER.match(line):
            yield line


def placed_lines(text):
    """The lines of a text that are of no module's head, each with the heads of the modules that it stands in."""
    modules, heading = [], False
    for line in bare_lines(text):
        if not heading:
            modules = [module for module in modules if module[0] < indent_of(line)]
            heading = line.lstrip().startswith("module ")
            if heading:
                modules.append((indent_of(line), []))
        if heading:
            modules[-1][1].extend(line.split())
            heading = not line.endswith("where")
        else:
            yield [word for module in modules for word in module[1]], 2 * len(modules), line


def declarations(text, all_whole):
    """The declarations of a text, each with the heads of its modules before its own words."""
    declared = None
    for heads, level, line in placed_lines(text):
        found = DECLARED.match(line.lstrip()) if indent_of(line) == level else None
        if found:
            if declared:
                yield declared
            whole = bool(all_whole or found["type"] or re.search("abbrev|unfoldable", found["modifiers"]))
            declared = Declared(found["name"] or found["type_name"], level, whole, [*heads, *line.split()])
        elif declared:
            declared.add(line)
    if declared:
        yield declared


def antt_lines(crate, folder, kind):
    """The lines of the declarations of a crate's folder. A function's own proof, in a folder below, has none."""
    pattern = "**/*.antt" if folder == "specs" else "*.antt"
    for file in sorted((crate / folder).glob(pattern)):
        path = ".".join([crate.name, *file.relative_to(crate).with_suffix("").parts])
        for declared in declarations(file.read_text(), folder == "specs"):
            yield f"{kind} | {path}.{declared.name} | {' '.join(declared.words)}"


# ---- edits and rows

def edit_lines(crate):
    """The lines of a crate's edits that must fail."""
    for file in sorted([*crate.glob("must-fail/*.edit"), *TOP.glob(f"must-fail/{crate.name}/*.edit")]):
        text = " | ".join(line.strip() for line in file.read_text().splitlines() if line.strip())
        yield f"edit | {crate.name}::{file.stem} | {text}"


def row_lines():
    """The lines of the rows of all tables. A line that is indented goes on with the row before it."""
    for file in sorted(TOP.glob("checks/tables/*.txt")):
        section, row = "", None
        for line in [*file.read_text(errors="surrogateescape").split("\n"), "#"]:
            if row is not None and line[:1].isspace() and line.strip():
                row += " " + line.strip()
                continue
            if row is not None:
                yield f"row | {file.stem} | {section} | {row}"
            row = None if line.startswith("#") or not line.strip() else line
            section = line.strip("# ") if line.startswith("#") else section


# ---- the two commands

def inventory():
    """All lines, sorted. A line stands as often as it was found."""
    lines = list(row_lines())
    for crate in sorted(path for path in TOP.glob("crates/*") if (path / "src").is_dir()):
        lines += code_lines(crate)
        lines += antt_lines(crate, "specs", "definition")
        lines += antt_lines(crate, "proofs", "lemma")
        lines += edit_lines(crate)
    return sorted(lines)


def names_of(file):
    """The renames that a file has."""
    names = {}
    for line in file.read_text().splitlines():
        old, arrow, new = line.partition("->")
        if arrow:
            names[old.strip()] = new.strip()
    return names


def renamed(lines, names):
    """The lines with all names renamed at once, the longest first; of lines that are the same then each."""
    if not names:
        return lines
    words = "|".join(re.escape(old) for old in sorted(names, key=len, reverse=True))
    word = re.compile(rf"(?<![\w'-])(?:{words})(?![\w'-])")
    return [line if line.startswith("row |") else word.sub(lambda found: names[found.group()], line) for line in lines]


def compare(old, new, names):
    """Shows what is lost and what is new. The status is 1 where anything is."""
    before = collections.Counter(renamed(read(old), names))
    after = collections.Counter(read(new))
    lost, found = sorted((before - after).elements()), sorted((after - before).elements())
    for line in [*("- " + line for line in lost), *("+ " + line for line in found)]:
        print(line)
    print(f"{before.total()} lines before, {after.total()} after: {len(lost)} lost, {len(found)} new")
    return 1 if lost or found else 0


def read(file):
    """The lines of a file."""
    return file.read_text(errors="surrogateescape").splitlines()


def arguments():
    """What the command line says."""
    parser = argparse.ArgumentParser(prog="checks/commands/inventory.py", description=__doc__.splitlines()[0])
    commands = parser.add_subparsers(dest="command", required=True)
    commands.add_parser("write").add_argument("file", type=pathlib.Path)
    comparing = commands.add_parser("compare")
    comparing.add_argument("old", type=pathlib.Path)
    comparing.add_argument("new", type=pathlib.Path)
    comparing.add_argument("--names", type=pathlib.Path)
    return parser.parse_args()


def main():
    """Runs the command."""
    asked = arguments()
    try:
        if asked.command == "compare":
            return compare(asked.old, asked.new, names_of(asked.names) if asked.names else {})
        asked.file.write_text("\n".join(inventory()) + "\n", errors="surrogateescape")
        return 0
    except OSError as error:
        print(f"checks/commands/inventory.py: {error}", file=sys.stderr)
        return 2


if __name__ == "__main__":
    sys.exit(main())
