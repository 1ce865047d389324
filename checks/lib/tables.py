"""The tables of a file of checks/tables, by the grammar of checks/tables/README.md."""
import dataclasses
import itertools
import re

NAME = "[a-z][a-z_]*"
SETTING = re.compile(rf"({NAME}(?: \| {NAME})*):(?: (.*))?")
RULE = re.compile("---+")
REPEATED = re.compile(r"([0-9]+)\*\((.*?)\)", re.S)
LINE_END = re.compile(r"(?:^| )/(?= |$)")
BYTES = re.compile("<((?:[0-9a-f]{2})+)>")
BEHIND = "    "


class Malformed(Exception):
    """A file that is no file of tables: where, and why."""


@dataclasses.dataclass
class Line:
    """A line, its number, and the lines behind four spaces that go on with it."""
    number: int
    first: str
    others: list

    def text(self):
        return " ".join([self.first, *self.others])


@dataclasses.dataclass
class TableRow:
    """A row: its line's number and text, its table's title, and the cells by their names, once for each time that it is asked."""
    number: int
    text: str
    title: str
    asks: list


# ---- cells

def raw(text):
    """The bytes of a text, in which a byte that belongs to no character stands for itself."""
    return text.encode("utf-8", "surrogateescape")


def unescaped(text):
    """A text with the bytes that `<ff>` stands for."""
    return BYTES.sub(lambda digits: bytes.fromhex(digits[1]).decode("utf-8", "surrogateescape"), text)


def repeated(text):
    """A text in which `3*(a#)` stands for a0a1a2."""
    def each(found):
        return "".join(found[2].replace("#", str(number)) for number in range(int(found[1])))
    return REPEATED.sub(each, text)


def cell(text):
    """What a cell stands for: repeats first, then lines, then bytes."""
    first, *others = LINE_END.split(repeated(text.strip(" ")))
    return unescaped("\n".join([first, *(line.removeprefix(" ") for line in others)]))


def cells(text):
    """What the cells of a line stand for."""
    return [cell(one) for one in text.split("|")]


# ---- lines

def lines_of(path):
    """The lines of a file, those that go on with another one with it; of an empty line there is one that is empty."""
    found = []
    for number, text in enumerate(path.read_text(encoding="utf-8").removesuffix("\n").split("\n"), 1):
        if text.startswith(BEHIND) and found and found[-1].first:
            found[-1].others.append(text.removeprefix(BEHIND))
        else:
            found.append(Line(number, text, []))
    return found


def blocks_of(path):
    """The blocks of a file's lines, which empty lines part; the first one says what the file is of."""
    blocks = [[]]
    for line in lines_of(path):
        if line.first:
            blocks[-1].append(line)
        elif blocks[-1]:
            blocks.append([])
    return [block for block in blocks if block]


# ---- tables

def named(names, values, line):
    """Values by their names, where those left out at the end are empty."""
    if len(values) > len(names):
        raise Malformed(f"{line.number}: {len(values)} cells, of columns there are {len(names)}: a bar in a cell is <7c>")
    return dict(itertools.zip_longest(names, values, fillvalue=""))


def setting_of(line):
    """The names and values of a line that is a setting, else nothing. Lines below a name alone are its value as they stand."""
    found = SETTING.fullmatch(line.first)
    if not found:
        return None
    names = found[1].split(" | ")
    if found[2] is None and line.others:
        return names, {names[0]: "".join(f"{unescaped(repeated(text))}\n" for text in line.others)}
    return names, named(names, cells(" ".join([found[2] or "", *line.others])), line)


def settings_of(lines):
    """The settings of a table, once for each time that its rows are asked: as often as the names stand that stand several times."""
    groups = {}
    for line in lines:
        setting = setting_of(line)
        if setting is None:
            raise Malformed(f"{line.number}: no setting, NAME: VALUE, and above the head there is nothing else")
        groups.setdefault(tuple(setting[0]), []).append(setting[1])
    if sum(len(group) > 1 for group in groups.values()) > 1:
        raise Malformed(f"{lines[0].number}: only settings of the same names stand several times")
    return [{name: text for one in turn for name, text in one.items()} for turn in itertools.product(*groups.values())]


def filled(settings, row, line):
    """A row's cells, and settings in which `$NAME` is the row's cell of that name or a setting above."""
    made = dict(row)

    def value(name):
        if name[1] not in made:
            raise Malformed(f"{line.number}: a setting names ${name[1]}, which is neither a column nor a setting above it")
        return made[name[1]]

    for key, text in settings.items():
        made[key] = re.sub(rf"\$({NAME})", value, text)
    return made


def rows_of_table(block, columns):
    """The rows of a table, whose columns are of these, or are named by its settings."""
    title = " ".join(line.first[2:] for line in itertools.takewhile(lambda line: line.first.startswith("# "), block))
    lines = [line for line in itertools.dropwhile(lambda line: line.first.startswith("# "), block)]
    rule = next((at for at, line in enumerate(lines) if RULE.fullmatch(line.first)), 0)
    if not title or not rule:
        raise Malformed(f"{block[0].number}: a table has a title, `# TITLE`, and a line of dashes below the names of its columns")
    head = [name.strip(" ") for name in lines[rule - 1].text().split("|")]
    settings = settings_of(lines[:rule - 1])
    used = {name for texts in settings for text in texts.values() for name in re.findall(rf"\$({NAME})", text)}
    unknown = {*head, *settings[0]} - {*columns, *used, "label"}
    if unknown or len({*head}) != len(head):
        raise Malformed(f"{lines[rule - 1].number}: no column of this file: {', '.join(sorted(unknown))}; there are {', '.join(columns)}")
    for line in lines[rule + 1:]:
        row = named(head, cells(line.text()), line)
        yield TableRow(line.number, line.text(), title, [filled(turn, row, line) for turn in settings])


def opening_of(path):
    """What a file says of itself."""
    return "\n".join(line.text() for line in blocks_of(path)[0])


def rows_of_file(path, columns):
    """The rows of a file."""
    try:
        return [row for block in blocks_of(path)[1:] for row in rows_of_table(block, columns)]
    except Malformed as malformed:
        raise Malformed(f"{path}:{malformed}") from None
