"""Digests of files, and the names in directories. Each is read once per build, when it is first needed.

Nothing is remembered from one build to the next, since equal dates, sizes and inodes do not prove equal contents: another file system may
have been mounted there.
"""
import hashlib
import json
import os
import stat
import threading

from listing.files import named


def new_digest(data=b""):
    """A new digest of this data, to which more can be added."""
    return hashlib.blake2b(data, digest_size=20)


def digest_of_kit():
    """The digest of the scripts of this kit. Another version of the kit may build something else from the same files."""
    found = new_digest()
    for folder in ("building", "listing"):
        path = os.path.join(os.path.dirname(os.path.dirname(os.path.abspath(__file__))), folder)
        for name in sorted(it for it in os.listdir(path) if it.endswith(".py")):
            with open(os.path.join(path, name), "rb") as file:
                found.update(file.read())
    return found.hexdigest()


# Records that other versions of the scripts wrote are ignored.
FORMAT = digest_of_kit()
DIRECTORY, SPECIAL = "directory", "special"


def digest_of(value):
    """The digest of a value that JSON can write."""
    return new_digest(json.dumps(value, sort_keys=True).encode(errors="surrogateescape")).hexdigest()


def write_whole(path, text):
    """Replaces a file atomically: a reader sees either the old or the new contents, even if this process is killed."""
    new = f"{path}.{os.getpid()}.{threading.get_ident()}.new"
    with named(path), open(new, "w", encoding="utf-8", errors="surrogateescape") as file:
        file.write(text)
    os.replace(new, path)


def has_contents(digest):
    """Whether a digest is that of a file that can be read."""
    return digest not in (None, DIRECTORY, SPECIAL)


def facts_of(status):
    """The metadata that differs if a file was changed or replaced."""
    return [status.st_dev, status.st_ino, status.st_size, status.st_mtime_ns, status.st_ctime_ns]


class Digests:
    """A cache of the digests of files, and of the names in directories."""

    def __init__(self):
        self.seen, self.facts, self.listings = {}, {}, {}

    def of(self, path):
        """The digest of a file's contents; DIRECTORY, SPECIAL or None if the path is not a file that can be read."""
        if path not in self.seen:
            self.seen[path] = self.read(path)
        return self.seen[path]

    def anew(self, path):
        """The digest of a file that this build has just written: the file is read again."""
        self.seen.pop(path, None)
        return self.of(path)

    def read(self, path):
        """The digest of a file's current contents, without the cache."""
        try:
            status = os.stat(path)
            if not stat.S_ISREG(status.st_mode):
                return DIRECTORY if stat.S_ISDIR(status.st_mode) else SPECIAL
            self.facts[path] = facts_of(status)
            with open(path, "rb") as file:
                return hashlib.file_digest(file, new_digest).hexdigest()
        except (OSError, ValueError):
            return None

    def is_outdated(self, path):
        """Whether a file was changed or replaced since its digest was taken."""
        try:
            return path in self.facts and self.facts[path] != facts_of(os.stat(path))
        except OSError:
            return True

    def forget(self, paths, folders):
        """Removes files and directories from the cache, so that they are read again."""
        for path in paths:
            self.seen.pop(path, None)
        for folder in folders:
            self.listings.pop(folder, None)

    def has(self, path):
        """Whether the path existed when its directory was first read."""
        folder, name = os.path.split(path)
        if folder not in self.listings:
            try:
                self.listings[folder] = frozenset(os.listdir(folder or "."))
            except (OSError, ValueError):
                self.listings[folder] = frozenset()
        return name in self.listings[folder]
