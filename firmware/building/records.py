"""Records of outputs and their inputs. A record is valid as long as building the output again would give the same bytes.

A record has the digest of each file that was read, and the digest of the output. For files that only the assembler or the linker reads, it
also has the names that were searched for, the directories that were searched, and the files that were found. Records and outputs are
written atomically.
"""
import json
import os
import re

from listing.files import Refused, text_at
from listing.flags import is_file, response_words

from .digests import FORMAT, SPECIAL, has_contents, write_whole

# Replaces the digest of a file that the compiler read but that cannot be read here, for example if the compiler runs in a container. No
# file has this digest, so the record is never valid.
UNREAD = "unread"
# Options of the assembler and the compiler that name an output file: a listing, such as -adhlns=a.lst, or a dump.
WRITTEN = re.compile(r"(?:-a[a-z]*|-fdump-[\w-]+|-fopt-info[\w-]*)=.*", re.S)


def paths_in_words(words):
    """The files that words name: as the whole word, after `=`, `,` or an option's letter, or in a response file of the linker."""
    found, left = [], [piece for word in words for piece in pieces_of(word)]
    while left:
        piece = left.pop()
        response = piece.startswith("@")
        path = piece[1:] if response else piece
        if path in found or not is_file(path):
            continue
        found.append(path)
        if response:
            left.extend(inner for word in words_of_response(path) for inner in pieces_of(word))
    return sorted(found)


def words_of_response(path):
    """The words in a response file; an empty list if it is not text."""
    try:
        return response_words(text_at(path))
    except Refused:
        return []


def pieces_of(word):
    """The parts of a word that may be paths of files to read."""
    word = ",".join(it for it in word.split(",") if not WRITTEN.fullmatch(it))
    pieces = [word, *word.split(",")]
    pieces += [it.partition("=")[2] for it in pieces if "=" in it]
    return [it for it in pieces + [re.sub("^-{1,2}[A-Za-z]", "", it) for it in pieces if it.startswith("-")] if it]


def maps_in(words):
    """The files that the linker writes because of its option -Map."""
    text = ",".join(it.removeprefix("-Wl,") for it in words if it != "-Xlinker")
    return re.findall(r"(?:^|,)--?Map[=,]([^,]+)", text)


class Record:
    """The inputs of an output, and the digest of the output."""

    def __init__(self, digests, key):
        self.digests, self.key = digests, key
        self.files, self.searches, self.present, self.output = {}, [], {}, None

    def add_files(self, paths):
        """Adds the files that were read."""
        for path in paths:
            self.files[path] = self.digests.of(path)

    def add_listed(self, paths):
        """Adds the files that a program reports as read. If one cannot be read here, its contents count as unknown."""
        for path in paths:
            digest = self.digests.of(path)
            self.files[path] = digest if has_contents(digest) or digest == SPECIAL else UNREAD

    def add_search(self, folders, names):
        """Adds a search for these names in each of these directories. Directories are compared as written, without resolving links."""
        self.searches.append([list(dict.fromkeys(folders)), sorted(names)])

    def close(self, output):
        """Completes the record with the digest of its output, which was just written."""
        self.output, self.present = self.digests.anew(output), self.found()

    def found(self):
        """The files that the searches find now, each with its digest."""
        paths = {os.path.join(folder, name) for folders, names in self.searches for folder in folders for name in names}
        return {path: self.digests.of(path) for path in paths if self.digests.has(path)}

    def holds(self, key, output):
        """Whether the record is still valid: all inputs are unchanged, and the output has the recorded bytes. Dates are ignored."""
        return (self.key == key and all(self.digests.of(path) == digest for path, digest in self.files.items())
                and self.present == self.found() and self.digests.of(output) == self.output)

    def value(self):
        """The record as a value for JSON."""
        return {"format": FORMAT, "key": self.key, "files": self.files, "searches": self.searches, "present": self.present,
                "output": self.output}


class Records:
    """The records in a build folder."""

    def __init__(self, folder, digests):
        self.folder, self.digests = folder, digests

    def path(self, kind, name):
        """The path of a record."""
        return os.path.join(self.folder, kind, f"{name}.json")

    def load(self, kind, name):
        """The record with this name; None if it is missing, damaged, or was written by another version of the kit."""
        try:
            with open(self.path(kind, name), encoding="utf-8", errors="surrogateescape") as file:
                value = json.load(file)
            if value["format"] != FORMAT:
                return None
            record = Record(self.digests, value["key"])
            record.files, record.searches = value["files"], value["searches"]
            record.present, record.output = value["present"], value["output"]
            return record
        except (OSError, ValueError, KeyError, TypeError):
            return None

    def save(self, kind, name, record):
        """Writes a record atomically."""
        path = self.path(kind, name)
        os.makedirs(os.path.dirname(path), exist_ok=True)
        write_whole(path, json.dumps(record.value()))
