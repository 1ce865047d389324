"""Linker scripts: which files are scripts, which files they name, and which directories they add to the linker's search."""
import os
import re

# A file that begins with one of these is not a script: ELF files, archives, thin archives and bitcode.
BINARY = (b"\x7fELF", b"!<arch>\n", b"!<thin>\n", b"BC\xc0\xde")
COMMENTS = re.compile(r"/\*.*?\*/", re.S)
INPUTS = re.compile(r"\b(?:INPUT|GROUP|STARTUP)\s*\(((?:[^()]|\([^()]*\))*)\)")
INCLUDED = re.compile(r'\bINCLUDE\s+("[^"]*"|[^\s;]+)')


def is_script(path):
    """Whether the linker reads a file as a script. Only its contents decide, not its name."""
    with open(path, "rb") as file:
        return not file.read(8).startswith(BINARY)


def text_of_script(path):
    """The text of a linker script, twice: unchanged, and without comments, since a file pattern may look like the start of a comment."""
    with open(path, "rb") as file:
        text = os.fsdecode(file.read())
    return f"{text}\n{COMMENTS.sub(' ', text)}"


def folders_in_script(text):
    """The directories that a linker script adds to the search path."""
    return re.findall(r'\bSEARCH_DIR\s*\(\s*"?=?([^")]*?)"?\s*\)', text)


def names_in_script(text):
    """The names of the files that a linker script reads, as by INPUT(start.o), GROUP(AS_NEEDED(-lcode)) or INCLUDE memory.ld."""
    words = [it for inputs in INPUTS.findall(text) for it in re.findall(r'"[^"]*"|[^\s(),"]+', inputs)]
    names = {it.strip('"').removeprefix("=") for it in [*words, *INCLUDED.findall(text)]} - {"AS_NEEDED", ""}
    return sorted(file for it in names for file in (library_files(it[2:]) if it.startswith("-l") else [it]))


def library_files(name):
    """The names of the files that the option -l with this value looks for."""
    return [name[1:]] if name.startswith(":") else [f"lib{name}.a", f"lib{name}.so"]
