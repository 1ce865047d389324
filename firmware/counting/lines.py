"""The tables of lines of a 32-bit little-endian ELF file, DWARF 2 to 5 (section 6.2 of each).

They are read here, since addr2line of binutils 2.40 names a wrong file for code of a source that another one includes, in DWARF 5.
"""
import bisect
import os
import struct
import zlib
from typing import NamedTuple

from listing.files import Refused

from .sections import Bytes, sections_of
from .units import folders_of

UNKNOWN = "??"


class Row(NamedTuple):
    """A row of a table: from an address on, the code is of a line of a file; a statement begins there; or the table's code ends."""

    address: int
    file: str
    line: int
    begins: bool
    ends: bool


class Table:
    """A table of lines: its header is read, its program not yet."""

    def __init__(self, data, sections, folder):
        self.data, self.sections, self.folder = data, sections, folder
        self.version = data.take("H")
        if not 2 <= self.version <= 5:
            raise ValueError(f"version {self.version}")
        if self.version == 5:
            data.take("H")
        length = data.take("I")
        program = data.at + length
        self.step = data.take("B")
        if self.version >= 4:
            data.take("B")
        self.statement, self.base, self.span, self.codes = (data.take(form) for form in "BbBB")
        self.operands = [data.take("B") for _ in range(self.codes - 1)]
        self.folders, self.files = self.entries_5() if self.version == 5 else self.entries_2()
        data.at = program

    def entries_2(self):
        """The folders and the files of DWARF 2 to 4, of which the first folder is the unit's and files count from 1."""
        folders, files = [self.folder], [(UNKNOWN, 0)]
        while name := self.data.text():
            folders.append(name)
        while name := self.data.text():
            files.append((name, self.data.leb()))
            self.data.leb()
            self.data.leb()
        return folders, files

    def entries_5(self):
        """The folders and the files of DWARF 5."""
        return [name for name, _ in self.entries()], self.entries()

    def entries(self):
        """The entries of one kind: the forms of an entry's parts, and then the entries, each a path and the number of its folder."""
        forms = [(self.data.leb(), self.data.leb()) for _ in range(self.data.take("B"))]
        count, found = self.data.leb(), []
        if count and not forms:
            raise ValueError("entries without parts")
        for _ in range(count):
            parts = {kind: self.value(form) for kind, form in forms}
            found.append((parts.get(1, ""), parts.get(2, 0)))
        return found

    def value(self, form):
        """A part of an entry, by its form (DWARF 5, 7.5.6)."""
        if form in (0x0e, 0x1f):
            section = self.sections[".debug_str" if form == 0x0e else ".debug_line_str"]
            return Bytes(section, self.data.take("I")).text()
        if form in (0x09, 0x1e):
            self.data.at += self.data.leb() if form == 0x09 else 16
            return None
        taken = {0x05: lambda: self.data.take("H"), 0x06: lambda: self.data.take("I"), 0x08: self.data.text,
                 0x0b: lambda: self.data.take("B"), 0x0f: self.data.leb}
        return taken[form]()

    def path(self, number):
        """The path of a file."""
        name, folder = self.files[number] if number < len(self.files) else (UNKNOWN, 0)
        inner = self.folders[folder] if folder < len(self.folders) else ""
        return name if name == UNKNOWN else os.path.normpath(os.path.join(self.folders[0] if self.folders else "", inner, name))


class Program:
    """Runs the program of a table, up to its end."""

    def __init__(self, table, end):
        self.table, self.data, self.end = table, table.data, end
        self.rows = []
        self.reset()

    def reset(self):
        self.address, self.file, self.line, self.begins = 0, 1, 1, bool(self.table.statement)

    def add_row(self, ends=False):
        self.rows.append(Row(self.address, self.table.path(self.file), self.line, self.begins, ends))

    def run(self):
        """The rows of each sequence, which are those between two ends of code."""
        while self.data.at < self.end:
            code = self.data.take("B")
            if code >= self.table.codes:
                self.special(code - self.table.codes)
            elif code == 0:
                self.extended()
            else:
                self.standard(code)
            if self.rows and self.rows[-1].ends:
                yield self.rows
                self.rows = []

    def special(self, code):
        self.address += self.table.step * (code // self.table.span)
        self.line += self.table.base + code % self.table.span
        self.add_row()

    def extended(self):
        size = self.data.leb()
        after = self.data.at + size
        code = self.data.take("B")
        if code == 1:
            self.add_row(ends=True)
            self.reset()
        elif code == 2:
            self.address = self.data.take("I")
        self.data.at = after

    def standard(self, code):
        if code == 1:
            self.add_row()
        elif code == 2:
            self.address += self.table.step * self.data.leb()
        elif code == 3:
            self.line += self.data.leb(signed=True)
        elif code == 4:
            self.file = self.data.leb()
        elif code == 6:
            self.begins = not self.begins
        elif code == 8:
            self.address += self.table.step * ((255 - self.table.codes) // self.table.span)
        elif code == 9:
            self.address += self.data.take("H")
        else:
            for _ in range(self.table.operands[code - 1]):
                self.data.leb()


def sequences_in(data):
    """The rows of an ELF file's bytes, a list a sequence."""
    sections = sections_of(data)
    lines = Bytes(sections.get(".debug_line", b""))
    folders = folders_of(sections)
    while lines.at < len(lines.data):
        folder = folders.get(lines.at, "")
        length = lines.take("I")
        end = lines.at + length
        if end > len(lines.data):
            raise ValueError("a table that is cut off")
        yield from Program(Table(lines, sections, folder), end).run()
        lines.at = end


class Lines:
    """The lines of an image."""

    def __init__(self, path, data):
        try:
            self.sequences = list(sequences_in(data))
        except (ArithmeticError, LookupError, TypeError, ValueError, struct.error, zlib.error) as error:
            raise Refused(f"{path}: its lines cannot be read: {error}") from None
        # Of one address the last row holds; where code ends and other code begins, that which begins.
        held = [row for rows in self.sequences for row in {row.address: row for row in rows}.values()]
        self.rows = sorted(held, key=lambda row: (row.address, not row.ends))
        self.starts = [row.address for row in self.rows]

    def at(self, address):
        """The file and the line of an address; the line is 0 where it has none."""
        place = bisect.bisect_right(self.starts, address) - 1
        if place < 0 or self.rows[place].ends:
            return UNKNOWN, 0
        return self.rows[place].file, self.rows[place].line
