"""What pages are compared with: the files of the tree, the crates of crates.txt, the names and the code of the sources, and counts."""
import dataclasses
import functools
import glob
import os
import pathlib
import re
import shutil
import subprocess

IDENTIFIER = re.compile(r"[A-Za-z_][A-Za-z0-9_]*")
# What a build or a tool leaves.
PASSED_OVER = {".git", "out", "__pycache__", "target"}
DEFINES = r"\b(?:fn|struct|enum|trait|type|const|mod) {0}\b"


@dataclasses.dataclass
class Facts:
    """The facts of the tree below a folder."""

    top: pathlib.Path

    @functools.cached_property
    def files(self):
        """The paths of all files from the top: those that git tracks, or all where there is no git."""
        found = subprocess.run(
            ["git", "-C", self.top, "ls-files", "--cached", "--others", "--exclude-standard"], capture_output=True, text=True, check=False
        ) if (self.top / ".git").exists() and shutil.which("git") else None
        if found and found.returncode == 0:
            return sorted(path for path in found.stdout.split("\n") if path and (self.top / path).exists())
        return sorted(self.walked())

    def walked(self):
        """The paths of all files that are no build's."""
        for folder, below, names in os.walk(self.top):
            below[:] = [name for name in below if name not in PASSED_OVER]
            for name in names:
                yield os.path.relpath(os.path.join(folder, name), self.top)

    @functools.cached_property
    def crates(self):
        """Each crate with the crates that it stands on, in the order of crates.txt."""
        lines = [line for line in self.read("crates.txt").split("\n") if line and not line.startswith("#")]
        return {name: below.split() for name, below in (line.split(":") for line in lines)}

    @property
    def externals(self):
        """The crates that others stand on and the repository does not have: the toolchain's."""
        return {below for needs in self.crates.values() for below in needs} - set(self.crates)

    def read(self, path):
        """The text of a file; bytes of no character are passed over."""
        return (self.top / path).read_text(encoding="utf-8", errors="ignore")

    @functools.cached_property
    def sources(self):
        """The text of each file of a crate's code, definitions and proofs, by its path."""
        return {path: self.read(path) for path in self.files if path.startswith("crates/") and path.endswith((".rt", ".antt"))}

    @functools.cached_property
    def vocabulary(self):
        """Every word of every file that is no page, and of the files' paths."""
        words = set()
        for path in self.files:
            words.update(IDENTIFIER.findall(path))
            if not path.endswith((".md", ".elf", ".bin", ".so")):
                words.update(IDENTIFIER.findall(self.read(path)))
        return words

    @functools.cached_property
    def code(self):
        """The code of all crates, each run of spaces as one."""
        return [collapsed(text) for path, text in self.sources.items() if path.endswith(".rt")]

    def has_code(self, text):
        """Whether some file of the crates has a text, whatever its spaces are."""
        return any(collapsed(text).rstrip(",") in code for code in self.code)

    def words_of(self, crate):
        """The words of a crate's sources."""
        return self.words_by_crate.get(crate, set())

    @functools.cached_property
    def words_by_crate(self):
        """The words of each crate's sources."""
        words = {}
        for path, text in self.sources.items():
            words.setdefault(path.split("/")[1], set()).update(IDENTIFIER.findall(text))
        return words

    def defines(self, crate, name):
        """Whether a crate's code defines a name: a function, a type, a constant or a module."""
        found = re.compile(DEFINES.format(re.escape(name)))
        return any(found.search(text) for path, text in self.sources.items() if path.startswith(f"crates/{crate}/src/"))

    def exists(self, path, folders):
        """Whether a path, which may have stars, is there from the top or from one of some folders."""
        return any(glob.glob(str(self.top / folder / path), include_hidden=True) for folder in ("", *folders))

    @functools.cached_property
    def counts(self):
        """The numbers that a page may state of the repository, by their names."""
        names = list(self.crates)
        tables = [path for path in self.files if re.fullmatch(r"checks/tables/\w+\.txt", path)]
        commands = re.search(r"const COMMANDS: \[\w+[^;]*; (\d+)\]", self.sources.get("crates/rvtest_cli/src/table.rt", ""))
        return {
            "crates": len(names),
            "program-crates": names.index("samples"),
            "externals": len(self.externals),
            "edits": sum(1 for path in self.files if re.fullmatch(r"(crates/\w+/must-fail|must-fail/\w+)/\w+\.edit", path)),
            "tests": sum(text.count("#[test]") for text in self.sources.values()),
            "tables": len(tables),
            "rows": sum(rows_in(self.read(path)) for path in tables),
            "commands": int(commands[1]) if commands else 0,
            "engines": sum(1 for path in self.files if re.fullmatch(r"engines/\w+/README\.md", path)),
            "lists": sum(1 for path in self.files if re.fullmatch(r"examples/\w+\.toml", path)),
        }


def rows_in(table):
    """How many rows a file of tables has: lines between a line of dashes and an empty one, without those that go on with a row."""
    rows, is_row = 0, False
    for line in table.split("\n"):
        if re.fullmatch(r"-{3,}", line):
            is_row = True
        elif not line:
            is_row = False
        elif is_row and not line.startswith("    "):
            rows += 1
    return rows


def collapsed(text):
    """A text in which each run of spaces is one, and none stands beside a bracket or a comma at its end."""
    return re.sub(r",\s*(?=[)\]}])", "", re.sub(r"\s+", " ", text)).replace("( ", "(").replace(" )", ")").strip()
