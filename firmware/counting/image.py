"""An image of a table of counts, as its file and the tools of the cross compiler show it."""
import hashlib
import os
import re
import subprocess

from listing.files import Refused

from .lines import Lines
from .table import file_at

INSTRUCTION = re.compile(r"\s*([0-9a-f]+):\s+([^\s.]\S*)")
CODE_KINDS = "tTwW"


def output_of(words, given=None):
    """What a tool prints."""
    environment = {**os.environ, "LC_ALL": "C"}
    try:
        done = subprocess.run(words, input=given, capture_output=True, check=False, encoding="utf-8", errors="replace", env=environment)
    except OSError as error:
        raise Refused(f"{words[0]}: {error.strerror}; as root, apt-get install binutils-riscv64-unknown-elf, or pass --prefix") from None
    if done.returncode:
        raise Refused(f"{' '.join(words)}: {done.stderr.strip()}")
    return done.stdout


def lines_of(image):
    """The lines of an image, whose file must have the digest of the counts."""
    data = file_at(image.path)
    if hashlib.sha256(data).hexdigest() != image.digest:
        raise Refused(f"{image.path}: the image differs from that of the counts")
    return Lines(image.path, data)


class File:
    """The file of an image."""

    def __init__(self, image, prefix):
        self.path, self.prefix = image.path, prefix
        self.lines = lines_of(image)

    def tool(self, name, *words, given=None):
        return output_of([self.prefix + name, *words, self.path], given).splitlines()

    def instructions(self):
        """The mnemonic of each address where an instruction stands, rising."""
        found = (INSTRUCTION.match(line) for line in self.tool("objdump", "-d", "--no-show-raw-insn", "-z"))
        return dict(sorted((int(it[1], 16), it[2]) for it in found if it))

    def chains(self, addresses):
        """Of each address, its function and the calls that were inlined on the way to it, innermost first: name and place."""
        chains, chain = {}, []
        lines = iter(self.tool("addr2line", "-afi", "-e", given="".join(f"{it:#x}\n" for it in addresses)))
        for line in lines:
            if line.startswith("0x"):
                chain = chains[int(line, 16)] = []
            else:
                chain.append((line, next(lines).partition(" (")[0]))
        return chains

    def functions(self):
        """The address, the name and the line of each function that has a line."""
        for line in self.tool("nm", "-l"):
            symbol, _, place = line.partition("\t")
            words, number = symbol.split(" "), place.rpartition(":")[2]
            if len(words) == 3 and words[1] in CODE_KINDS and number.isdigit():
                yield int(words[0], 16), words[2], int(number)
