"""The small files beside a test: what each may contain, and the errors for one that contains something else."""
import contextlib
import os
import re
import stat
import unicodedata

WORD = 2**32
# Categories of characters that do something to a terminal other than show themselves: controls, formats such as U+202E, surrogates,
# private and unassigned ones, and separators of lines and paragraphs.
UNSEEN = ("Cc", "Cf", "Cs", "Co", "Cn", "Zl", "Zp")


class Refused(Exception):
    """What is wrong, with its file."""


def shown(text):
    """A text for a terminal: what would not show as itself is escaped."""
    return "".join(it if unicodedata.category(it) not in UNSEEN else escape_of(it) for it in text)


def escape_of(sign):
    """The escape of a character: of a byte that is not UTF-8 `\\xNN`, as Python smuggles it in paths."""
    code = ord(sign)
    if sign in "\n\r\t":
        return {"\n": "\\n", "\r": "\\r", "\t": "\\t"}[sign]
    if 0xdc80 <= code <= 0xdcff:
        return f"\\x{code - 0xdc00:02x}"
    return f"\\x{code:02x}" if code < 0x80 else f"\\u{{{code:x}}}"


def text_of_error(error):
    """What the system says is wrong with a file."""
    path = error.filename2 or error.filename
    named = f"{shown(os.fsdecode(path))}: " if isinstance(path, (str, bytes)) else ""
    return f"{named}error: {error.strerror or error}"


@contextlib.contextmanager
def named(path):
    """Errors within are about this file, unless they name one: those of writes name none."""
    try:
        yield
    except OSError as error:
        if error.filename is None:
            error.filename = path
        raise


def content_of(path):
    """A file's bytes, or None if there is no such file. A link without a target is refused: whoever made it expects that it says something."""
    try:
        if not stat.S_ISREG(mode := os.stat(path).st_mode) and not stat.S_ISDIR(mode):
            raise Refused(f"{shown(path)}: error: expected a regular file")
        with open(path, "rb") as file:
            return file.read()
    except FileNotFoundError:
        if os.path.islink(path):
            raise Refused(f'{shown(path)}: error: a dangling link: there is no file "{shown(os.readlink(path))}"') from None
        return None
    except OSError as error:
        raise Refused(f"{shown(path)}: error: {error.strerror}") from None


def text_at(path):
    """A file's text, empty if there is no such file."""
    content = content_of(path) or b""
    try:
        return content.decode()
    except UnicodeDecodeError as error:
        line = content.count(b"\n", 0, error.start) + 1
        raise Refused(f"{shown(path)}:{line}: error: invalid UTF-8 at byte {error.start} of the file") from None


def word_of(path):
    """The one word of a small file, or None if there is no such file."""
    content = content_of(path)
    if content is None:
        return None
    words = content.decode(errors="surrogateescape").split()
    if len(words) != 1:
        raise Refused(f"{shown(path)}:1: error: expected one word, found {len(words)}")
    return words[0]


def number_of(path, least, most):
    """The number of a small file, or None if there is no such file."""
    word = word_of(path)
    if word is None:
        return None
    if not re.fullmatch(r"-?[0-9]{1,10}", word) or not least <= int(word) <= most:
        raise Refused(f'{shown(path)}:1: error: expected an integer from {least} to {most}, found "{shown(word)}"')
    return int(word)


def bytes_of(path, room):
    """The bytes of a file that may have at most so many, or None if there is no such file."""
    content = content_of(path)
    if content is not None and len(content) > room:
        raise Refused(f"{shown(path)}: error: too long: expected at most {room} bytes, found {len(content)}")
    return content


def files_in(folder):
    """The names of what is in a folder, in order, without hidden ones."""
    try:
        return sorted(it for it in os.listdir(folder) if not it.startswith("."))
    except OSError as error:
        raise Refused(f"{shown(folder)}: error: {error.strerror}") from None


def text_of(value):
    """A text as TOML writes it."""
    try:
        value.encode()
    except UnicodeEncodeError:
        raise Refused(f"{shown(value)}: error: the path is not valid UTF-8, which a job list must be") from None
    short = {'"': '\\"', "\\": "\\\\"}
    return '"' + "".join(short.get(it) or (f"\\u{ord(it):04x}" if it < " " or it == "\x7f" else it) for it in value) + '"'
