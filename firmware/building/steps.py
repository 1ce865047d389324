"""The steps of a build: compiling a source to an object, and linking objects to an image. A step runs only if its output is not up to date.

An object is up to date if the compiler would run the same programs with the same arguments, its preprocessor prints the same text, and the
files that were read have the same contents. An image is up to date if the same holds for the linker, which has no preprocessor, and no file
has appeared where the linker searches. No file may have appeared where the assembler searches, either.
"""
import os
import re
import shlex
import subprocess
import time
from typing import NamedTuple

from listing.files import Refused, shown

from .compiler import TEMPORARY, UNCACHED, WITHOUT_HEADERS
from .digests import DIRECTORY, digest_of, new_digest
from .records import Record, maps_in, paths_in_words
from .rules import files_in_linked, files_in_rules
from .scripts import folders_in_script, is_script, library_files, names_in_script, text_of_script

# The resolution of timestamps in file systems. A change whose timestamp is less than this before the start of a compiler may have come
# after it.
TICK_NS = 20_000_000
MOST_TRIES = 3
# With this option, a source is assembled when it is compiled even if -flto is set, so that the assembler reports which files it reads.
ASSEMBLED = "-ffat-lto-objects"
# With this option, system headers are listed under the paths where they were found, and links in these paths are not resolved: a link may
# later point to another directory.
AS_FOUND = "-fno-canonical-system-headers"
# GCC's objects that have no assembled code have this symbol.
SLIM = b"\0__gnu_lto_slim\0"
NAMED = re.compile(rb'(?:\.file[ \t]+|^[ \t]*#[ \t]*(?:line[ \t]+)?\d+[ \t]+)"([^"\n]*)"', re.M)
# With this option, the preprocessor's text names each precompiled header that replaces a header.
PRECOMPILED_NAMED = "-fpch-preprocess"
PRECOMPILED = re.compile(rb'^#pragma GCC pch_preprocess "(.*)"$', re.M)


class Failed(Exception):
    """A step failed. The compiler has printed why, or the message says it."""


class Source(NamedTuple):
    """A source with its compiler options."""

    path: str
    language: str
    options: tuple
    label: str


class Tools(NamedTuple):
    """The objects that all steps use."""

    compiler: object
    digests: object
    records: object
    folder: str
    report: object


def key_of(tools, words, answer):
    """The key of a step: all that its output depends on, except for the files that it reads."""
    return digest_of([tools.compiler.words, words, answer.digest, tools.compiler.environment, os.getcwd()])


def preprocess(tools, source):
    """The preprocessor's output for a source, including warnings; empty if the language has no preprocessor, and None if it fails."""
    if source.language in WITHOUT_HEADERS:
        return b""
    words = [*tools.compiler.words, *source.options, AS_FOUND, PRECOMPILED_NAMED, "-x", source.language, "-E", source.path]
    done = subprocess.run(words, stdin=subprocess.DEVNULL, stdout=subprocess.PIPE, stderr=subprocess.STDOUT, check=False,
                          env={**os.environ, **UNCACHED})
    return None if done.returncode else done.stdout


def compile_step(tools, source):
    """Compiles a source to an object, unless the object is up to date. Returns its path, and whether the source was compiled."""
    answer = tools.compiler.about(list(source.options), source.language)
    words = [*source.options, "-x", source.language, "-c", source.path]
    place = key_of(tools, words, answer)
    stem = re.sub(r"[^A-Za-z0-9._-]", "_", os.path.splitext(os.path.basename(source.path))[0])
    output = os.path.join(tools.folder, "objects", place, f"{stem}.o")
    # If a file changes between this and the compilation, the next build's text differs, so the record is not valid then.
    text = preprocess(tools, source)
    key = digest_of([place, new_digest(text or b"").hexdigest()])
    record = tools.records.load("objects", os.path.join(place, "record"))
    if record and answer.here and text is not None and record.holds(key, output):
        return output, False
    os.makedirs(os.path.dirname(output), exist_ok=True)
    headers, assembled = f"{output}.headers", f"{output}.assembled"
    command = [*words, ASSEMBLED, AS_FOUND, "-MD", "-MF", headers, "-MT", "x", f"-Wa,--MD,{assembled}"]

    def read():
        refuse_unassembled(f"{output}.new", source.path)
        files = [source.path]
        if source.language not in WITHOUT_HEADERS:
            files += read_list(headers, files_in_rules)
        return files, read_list(assembled, files_in_rules)

    def complete(record, files, others):
        record.add_files([*paths_in_words([*tools.compiler.words, *source.options]), *map(os.fsdecode, PRECOMPILED.findall(text or b""))])
        included = read_by_assembler(others, files)
        record.add_listed([*files, *included])
        folders = ["", *answer.assembler, *(os.path.dirname(it) for it in [source.path, *included])]
        record.add_search(folders, {name for it in included for name in names_below(it, folders)})

    record = run_recorded(tools, command, output, key, f"CC {source.label}", read, complete)
    for path in (headers, assembled):
        if os.path.exists(path):
            os.remove(path)
    if record and text is not None:
        tools.records.save("objects", os.path.join(place, "record"), record)
    os.replace(f"{output}.new", output)
    tools.digests.anew(output)
    return output, True


def link_step(tools, words, image, place, label):
    """Links objects to an image, unless the image is up to date. Returns whether they were linked."""
    answer = tools.compiler.about([it for it in words if not it.endswith(".o")])
    key = key_of(tools, words, answer)
    record = tools.records.load("images", place)
    if record and answer.here and record.holds(key, image):
        return False
    os.makedirs(os.path.dirname(image), exist_ok=True)
    listed, given = f"{image}.linked", [*tools.compiler.words, *words]
    maps = maps_in(given)
    command = [*words, f"-Wl,--dependency-file={listed}"]

    def complete(record, files, others):
        tools.digests.forget(maps, [])
        members = [it for archive in filter(os.path.isfile, files) for it in members_of_thin(archive)]
        record.add_files(others)
        # Linker scripts are listed by name, without a directory. Any of these directories may have them, so every file with the name is checked.
        folders = ["", *answer.libraries]
        here = {it for it in files if any(os.path.isfile(os.path.join(folder, it)) for folder in folders)}
        record.add_listed([*(it for it in files if os.path.exists(it) or it not in here and not TEMPORARY.fullmatch(it)), *members])
        named = [it for it in [*files, *others] if not it.startswith(tools.folder) and it not in maps]
        scripts = [path for it in files for path in (os.path.join(folder, it) for folder in folders) if os.path.isfile(path) and is_script(path)]
        texts = [text_of_script(it) for it in scripts]
        libraries = [it for name in answer.library_names for it in library_files(name)]
        names = {*named, *map(os.path.basename, named), *libraries, *(it for text in texts for it in names_in_script(text))}
        folders += [os.path.dirname(it) for it in scripts] + [it for text in texts for it in folders_in_script(text)]
        record.add_search(folders, names)

    def read():
        return read_list(listed, files_in_linked), paths_in_words(given)

    record = run_recorded(tools, command, image, key, label, read, complete, maps)
    os.remove(listed)
    if record:
        tools.records.save("images", place, record)
    os.replace(f"{image}.new", image)
    return True


def run_recorded(tools, words, output, key, label, read, complete, written=()):
    """Runs the compiler until none of its inputs changes during a run, and returns the record of the output, or None after too many tries.

    A file whose digest was computed before the run must be unchanged after it. A file or directory that was first read after the run must
    not have changed since the run began, and neither may a file that a search found. `written` are other files that the compiler writes.
    """
    new = f"{output}.new"
    for _ in range(MOST_TRIES):
        began, listed = time.time_ns() - TICK_NS, set(tools.digests.listings)
        run(tools, [*words, "-o", new], label)
        label = None
        if not os.path.isfile(new):
            raise Failed(f"{shown(output)}: error: the compiler exited with status 0 but wrote no output")
        record = Record(tools.digests, key)
        complete(record, *read())
        record.close(new)
        found = [path for path, digest in record.present.items() if digest != DIRECTORY]
        files = [it for it in {*record.files, *found} if not it.startswith(tools.folder) and it not in written]
        folders = {folder for search in record.searches for folder in search[0]} - listed
        changed = [it for it in files if changed_since(it, began) or tools.digests.is_outdated(it)]
        changed_folders = [it for it in folders if changed_since(it or ".", began)]
        if not changed and not changed_folders:
            return record
        time.sleep(TICK_NS / 1e9)
        tools.digests.forget(changed, changed_folders)
    return None


def changed_since(path, instant):
    """Whether a file was changed or replaced at this time or later."""
    try:
        return os.stat(path).st_ctime_ns >= instant
    except OSError:
        return False


def run(tools, words, label):
    """Runs the compiler, and then reports its command together with its output."""
    words = [*tools.compiler.words, *words]
    done = subprocess.run(words, stdin=subprocess.DEVNULL, stdout=subprocess.PIPE, stderr=subprocess.STDOUT, check=False,
                          env={**os.environ, **UNCACHED})
    said = done.stdout.decode("utf-8", "surrogateescape")
    tools.report.step(label, shlex.join(words), said)
    if done.returncode:
        raise Failed("" if said.strip() else f"{words[0]}: error: ended with status {done.returncode}")


def refuse_unassembled(path, source):
    """Rejects an object that has only code for the linker to compile, since no assembler has reported yet which files it reads."""
    with open(path, "rb") as file:
        if SLIM in file.read():
            raise Failed(f"{shown(source)}: error: the compiler wrote an object without code, so it is not known which files the assembler reads\n"
                         "help: remove -fno-fat-lto-objects from the compiler's specs")


def read_list(path, parse):
    """The file names in a list that the compiler wrote."""
    try:
        with open(path, "rb") as file:
            return parse(os.fsdecode(file.read()))
    except (OSError, ValueError) as error:
        raise Refused(f"{shown(path)}: error: cannot tell which files were read: {error}") from None


def read_by_assembler(listed, files):
    """The listed files that the assembler read. The list also has the source's name as the compiler wrote it into the assembler's input."""
    absent = [it for it in listed if not os.path.exists(it) and not TEMPORARY.fullmatch(it)]
    named = {*files[:1], *(name for it in filter(os.path.isfile, [*files, *listed]) for name in names_of_lines(it))} if absent else set()
    named |= {os.path.basename(it) for it in named}
    return [it for it in listed if os.path.exists(it) or it in absent and it not in named]


def names_below(path, folders):
    """The relative names under which these directories may have a path."""
    plain, names = plain_path(path), {os.path.basename(path)}
    for folder in folders:
        above = plain_path(f"{folder}/").rstrip("/") if folder else ""
        if not above and not folder.startswith("/"):
            # The current directory of make.
            names.add(plain)
        elif plain.startswith(f"{above}/"):
            names.add(plain[len(above) + 1:])
    return {it for it in names if not os.path.isabs(it)}


def plain_path(path):
    """A path without `./` and doubled slashes, some of which lists omit. `..` is kept, since its meaning depends on links."""
    absolute = "/" if path.startswith("/") else ""
    return absolute + "/".join(it for it in path.split("/") if it not in ("", "."))


def names_of_lines(path):
    """The file names in .file directives and in line markers of preprocessed sources. They only serve debug information."""
    with open(path, "rb") as file:
        return {os.fsdecode(it) for it in NAMED.findall(file.read())}


def members_of_thin(path):
    """The files that a thin archive refers to."""
    with open(path, "rb") as file:
        if file.read(8) != b"!<thin>\n":
            return []
        names = b""
        while head := file.read(60):
            if head[:16].strip() not in (b"/", b"//", b"/SYM64/"):
                continue
            data = file.read((int(head[48:58]) + 1) // 2 * 2)
            names = data if head.startswith(b"//") else names
    return [os.path.join(os.path.dirname(path), it) for it in os.fsdecode(names).split("/\n") if it.strip()]
