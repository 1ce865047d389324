"""Files of keys: lines of a job as the list has them. Lines of a nearer file replace those of a farther one, key by key."""
import re
import tomllib

from .files import Refused, shown, text_at

OURS = ("name", "image")
# A job has one of each of these: a nearer one replaces the other, too.
ONE_OF = ({"expect_exit", "expect_end"}, {"input", "input_hex"}, {"expect_console", "expect_console_file"})


class Lines(str):
    """The lines of a key as they are written, and the file and the line where they begin."""

    path, line = None, 0

    @classmethod
    def at(cls, text, path, line):
        """Lines of a file."""
        lines = cls(text)
        lines.path, lines.line = path, line
        return lines


def keys_in(path):
    """The keys of a file, each with its lines as they are written."""
    return keys_of(text_at(path), path)


def keys_of(text, path):
    """The keys of a text, each with its lines as they are written: as many lines as it takes to be TOML."""
    try:
        tomllib.loads(text)
    except tomllib.TOMLDecodeError as error:
        raise Refused(toml_error(path, text, error)) from None
    keys, lines, begins = {}, [], 1
    for number, line in enumerate(text.split("\n"), 1):
        lines.append(line.removesuffix("\r"))
        read = read_part("\n".join(lines))
        if read is None:
            continue
        if lines[-1].lstrip().startswith("["):
            raise Refused(f'{shown(path)}:{number}: error: "{shown(line.strip())}" begins a table: expected lines "key = value"')
        for key in read:
            if key in OURS:
                raise Refused(f'{shown(path)}:{number}: error: "{key}" cannot be set: it is the name of the test, or of its image')
            keys[key] = Lines.at("\n".join(filter(None, [keys.get(key), *lines])), path, begins)
        lines, begins = [], number + 1
    return keys


def toml_error(path, text, error):
    """What is wrong with a text that is not TOML, with its line and column."""
    found = re.fullmatch(r"(.*) \(at line (\d+), column (\d+)\)", str(error), re.S)
    what, line, column = found.groups() if found else (str(error).partition(" (at ")[0], str(text.rstrip("\n").count("\n") + 1), None)
    return f"{shown(path)}:{line}{f':{column}' if column else ''}: error: invalid TOML: {shown(what[:1].lower() + what[1:])}"


def read_part(text):
    """What a part of a text says, or None where it ends within a value."""
    try:
        return tomllib.loads(text)
    except tomllib.TOMLDecodeError:
        return None


def put(keys, nearer):
    """Replaces keys by the nearer ones."""
    for group in ONE_OF:
        if group & nearer.keys():
            for key in group:
                keys.pop(key, None)
    keys.update(nearer)
