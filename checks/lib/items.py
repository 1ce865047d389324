"""Items of a crate's code: functions, types, traits and what stands in them, without their bodies."""
import dataclasses
import re

TOKEN = re.compile(r"""
    (?P<skip>\s+|//[^\n]*|/\*.*?\*/)
  | b?r?\#*"(?:\\.|[^"\\])*"\#* | b?'(?:\\[^'\n]*|[^\\'\n])' | '[A-Za-z_]\w* | [^\W\d]\w* | \d\w* | -> | => | .
""", re.X | re.S)
CLOSING = {"(": ")", "[": "]", "{": "}"}
CLAUSES = ("requires", "ensures")
# Where no space stands between two words of a line.
LOOSE = (" . ", "+ +", "( ", " )", " ,", "& ", ": :", " ::", ":: ")


@dataclasses.dataclass
class Source:
    """The words of a file of code, and for each bracket that opens where it is closed."""
    words: list
    ends: dict


@dataclasses.dataclass
class Item:
    """An item's place: its first word behind what marks it, its keyword, where its head ends, and the place behind it."""
    marks: str
    visibility: str
    keyword: int
    head_end: int
    end: int


def source_of(text):
    """The words of a text, without its comments, and its brackets by pairs."""
    words = [found.group() for found in TOKEN.finditer(text) if not found.group("skip")]
    opened, ends = [], {}
    for place, word in enumerate(words):
        if word in CLOSING:
            opened.append(place)
        elif opened and word == CLOSING[words[opened[-1]]]:
            ends[opened.pop()] = place
    return Source(words, ends)


def behind_marks(source, place):
    """The attributes and the visibility at a place, and the place behind them."""
    words, start = source.words, place
    while words[place] == "#":
        place = source.ends[place + (2 if words[place + 1] == "!" else 1)] + 1
    marks = "".join(words[start:place])
    visibility = ""
    if words[place] == "pub":
        visibility = "pub"
        place += 1
        if words[place] == "(":
            visibility = "pub(" + "".join(words[place + 1:source.ends[place]]) + ")"
            place = source.ends[place] + 1
    while words[place] in ("unsafe", "async") or words[place] == "const" and words[place + 1] == "fn":
        place += 1
    return marks, visibility, place


def clause_end(source, place):
    """The place behind a clause that begins at a place: its keyword, its name where it has one, and its text."""
    while source.words[place] != "{":
        place += 1
    return source.ends[place] + 1


def item_at(source, start):
    """The item at a place."""
    words = source.words
    marks, visibility, keyword = behind_marks(source, start)
    place = keyword
    ends_by_brace = words[keyword] in ("fn", "mod", "impl", "trait", "struct", "enum", "union") or words[keyword + 1] == "!"
    while words[place] != ";" and not (ends_by_brace and words[place] == "{"):
        if words[place] in CLAUSES and words[keyword] == "fn":
            place = clause_end(source, place)
        else:
            place = source.ends.get(place, place) + 1
    return Item(marks, visibility, keyword, place, source.ends.get(place, place) + 1)


def items(source, start, end):
    """The items between two places."""
    while start < end:
        item = item_at(source, start)
        yield item
        start = item.end


def spaced(words):
    """Words as one line, the same for every layout."""
    text = " ".join(words).replace(" , )", " )")
    for loose in LOOSE:
        text = text.replace(loose, loose.replace(" ", ""))
    return text


def parts(source, start, end):
    """The texts between two places, parted by commas that stand in no bracket."""
    part, depth, place = [], 0, start
    while place < end:
        word = source.words[place]
        stop = source.ends.get(place, place) + 1
        depth += {"<": 1, ">": -1}.get(word, 0)
        if word == "," and depth == 0:
            yield part
            part = []
        else:
            part += source.words[place:stop]
        place = stop
    if part:
        yield part


def argument_type(words):
    """The type of an argument; of `self` the argument as it is written."""
    if ":" not in words or words[-1] == "self":
        return spaced(words)
    return spaced(words[words.index(":") + 1:])


def type_name(words):
    """Of the head of an `impl` the type, and the trait that it is for."""
    depth, flat = 0, []
    for word in words:
        depth += {"<": 1}.get(word, 0)
        if depth == 0:
            flat.append(word)
        depth -= {">": 1}.get(word, 0)
    if "where" in flat:
        flat = flat[:flat.index("where")]
    if "for" in flat:
        at = flat.index("for")
        return "".join(flat[at + 1:]) + " as " + "".join(flat[:at])
    return "".join(flat)
