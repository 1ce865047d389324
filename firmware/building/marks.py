"""Marks: a mark lists the images and the job list that one `make` uses. After its run, `make` checks that no other `make` replaced them."""
import contextlib
import fcntl
import json
import os
import time

from listing.files import named, shown

from .digests import facts_of, write_whole

# Marks are removed after this time. A `make` that runs for longer reports that its mark is gone.
KEPT_SECONDS = 86_400
LOCK = "lock"


def state_of(path):
    """The metadata that differs if a file was replaced, even by a file with equal contents; None if there is no file."""
    try:
        return facts_of(os.stat(path))
    except OSError:
        return None


def write_mark(mark, images):
    """Writes a mark of these images, and removes old marks. The caller has the lock, so no other build replaces an image meanwhile."""
    folder = os.path.dirname(mark)
    os.makedirs(folder, exist_ok=True)
    for path in (os.path.join(folder, it) for it in os.listdir(folder) if it != LOCK):
        with contextlib.suppress(FileNotFoundError):
            if os.path.getmtime(path) < time.time() - KEPT_SECONDS:
                os.remove(path)
    write_whole(mark, json.dumps({it: state_of(it) for it in images}))


def states_in(mark):
    """The states in a mark, by path."""
    with open(mark, encoding="utf-8", errors="surrogateescape") as file:
        return json.load(file)


def write_marked(path, text, mark):
    """Writes a file, unless it already has this text, and adds it to the mark.

    The mark gets the state of the file that was written or read here, not of a file that has this path later.
    """
    with open(os.path.join(os.path.dirname(mark), LOCK), "w", encoding="utf-8") as lock:
        fcntl.flock(lock, fcntl.LOCK_EX)
        state = state_if_same(path, text.encode())
        if state is None:
            new = f"{path}.{os.getpid()}.new"
            with named(path), open(new, "wb") as file:
                file.write(text.encode())
                file.flush()
                replace(new, path)
                state = facts_of(os.fstat(file.fileno()))
        write_whole(mark, json.dumps({**states_in(mark), path: state}))


def replace(new, path):
    """Replaces a file by a new one. If this fails, the new file is removed."""
    try:
        os.replace(new, path)
    except OSError:
        os.remove(new)
        raise


def state_if_same(path, content):
    """The state of a file if it has this content; otherwise None."""
    try:
        with open(path, "rb") as file:
            return facts_of(os.fstat(file.fileno())) if file.read() == content else None
    except OSError:
        return None


def error_of(mark):
    """The error that another build has replaced a file since it was marked; empty if none was replaced."""
    try:
        replaced = [path for path, state in states_in(mark).items() if state != state_of(path)]
    except FileNotFoundError:
        replaced = [mark]
    return text_of_replaced(replaced[0]) if replaced else ""


def text_of_replaced(path):
    """The error that another build replaced a file."""
    return f"{shown(path)}: error: another build replaced it meanwhile: run make again"
