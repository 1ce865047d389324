"""Pages of Markdown as blocks: headings, paragraphs, items of lists, rows of tables and code; and the sentences of a text."""
import dataclasses
import re

CODE = re.compile(r"`([^`]+)`")
LINK = re.compile(r"\[([^\]]*)\]\(([^()\s]+)\)")
COMMENT = re.compile(r"<!--.*?-->", re.DOTALL)
ITEM = re.compile(r"^\s*(?:[-*]|\d+\.) ")
WORD = re.compile(r"\S*\w\S*")
# A sentence ends before what begins another one: a capital, a digit, a quotation, code or emphasis.
END = re.compile(r"(?<=[.!?])[)\"*]*\s+(?=[A-Z0-9\"(*\[\u0000])")


@dataclasses.dataclass
class Block:
    """A part of a page: its kind (heading, text, item, row or code), its first line's number, and its text."""

    kind: str
    line: int
    text: str


@dataclasses.dataclass
class Page:
    """A page: its path from the top, its own text, and its blocks."""

    path: str
    text: str
    blocks: list

    def line_of(self, block, place):
        """The number of the line that has the character at a place of a block's text."""
        return block.line + block.text.count("\n", 0, place)

    def prose(self):
        """The blocks that are no code."""
        return [block for block in self.blocks if block.kind != "code"]


def read_page(path, text):
    """The page of a text, whose comments count as spaces."""
    plain = COMMENT.sub(lambda found: re.sub(r"[^\n]", " ", found[0]), text)
    return Page(path, text, blocks_of(plain.split("\n")))


def blocks_of(lines):
    """The blocks of lines, in order."""
    blocks, at = [], 0
    while at < len(lines):
        line = lines[at]
        if line.lstrip().startswith("```"):
            at = add_fenced(blocks, lines, at)
        elif is_indented_code(blocks, lines, at):
            at = add_while(blocks, "code", lines, at, lambda line: not line.strip() or line.startswith("    "))
        elif line.startswith("#"):
            at = add_while(blocks, "heading", lines, at, lambda line: False)
        elif line.startswith("|"):
            at = add_while(blocks, "row", lines, at, lambda line: False)
        elif ITEM.match(line):
            at = add_while(blocks, "item", lines, at, goes_on)
        elif line.strip():
            at = add_while(blocks, "text", lines, at, goes_on)
        else:
            at += 1
    return blocks


def goes_on(line):
    """Whether a line belongs to the paragraph or the item before it."""
    return bool(line.strip()) and not ITEM.match(line) and line[0] not in "#|" and not line.lstrip().startswith("```")


def is_indented_code(blocks, lines, at):
    """Whether code begins at a line: it is indented by four, behind an empty line, and stands in no item."""
    after_empty = at == 0 or not lines[at - 1].strip()
    return lines[at].startswith("    ") and after_empty and not (blocks and blocks[-1].kind == "item")


def add_fenced(blocks, lines, at):
    """Adds the code between two fences, and gives the place behind it."""
    end = at + 1
    while end < len(lines) and not lines[end].lstrip().startswith("```"):
        end += 1
    blocks.append(Block("code", at + 1, "\n".join(lines[at:end])))
    return end + 1


def add_while(blocks, kind, lines, at, goes):
    """Adds a block of a line and of those behind it that go on, and gives the place behind it."""
    end = at + 1
    while end < len(lines) and goes(lines[end]):
        end += 1
    blocks.append(Block(kind, at + 1, "\n".join(lines[at:end]).rstrip("\n")))
    return end


def cells_of(row):
    """The cells of a table's row. A bar within code parts none."""
    kept = CODE.sub(lambda found: found[0].replace("|", "\u0001"), row.strip().strip("|"))
    return [cell.strip().replace("\u0001", "|") for cell in kept.split("|")]


def is_rule(row):
    """Whether a row is the line between a table's head and its rows."""
    return set(row) <= set("|-: ")


def shown(text):
    """A text as a reader sees it: links without their targets."""
    return LINK.sub(r"\1", text)


def sentences_in(text):
    """The sentences of a text, as lists of words. Code counts by its words, and its dots end nothing."""
    codes = []

    def hide(found):
        """A mark in the place of code."""
        codes.append(found[1])
        return f"\u0000{len(codes) - 1}\u0000"

    def show(sentence):
        """The sentence with its code."""
        return re.sub("\u0000(\\d+)\u0000", lambda found: codes[int(found[1])], sentence)

    hidden = CODE.sub(hide, " ".join(shown(ITEM.sub("", text, count=1)).split()))
    sentences = [WORD.findall(show(sentence)) for sentence in END.split(hidden)]
    return [sentence for sentence in sentences if sentence]


def slug(heading, taken):
    """The anchor of a heading, as sites of repositories make it; of equal ones the later get a number."""
    text = shown(heading.lstrip("#").strip()).replace("`", "").lower()
    base = re.sub(r"[^\w\- ]", "", text).replace(" ", "-")
    name, number = base, 1
    while name in taken:
        name, number = f"{base}-{number}", number + 1
    taken.add(name)
    return name


def anchors_in(page):
    """The anchors of a page."""
    taken = set()
    for block in page.blocks:
        if block.kind == "heading":
            slug(block.text, taken)
    return taken
