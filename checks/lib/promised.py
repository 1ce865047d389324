"""The forms of rows of what the repository promises of itself: the public items of the libraries of rvfleet, the libraries that it stands
on, and the wrong bodies that the gate tries. They read the sources, and run no program.
"""
import functools
import pathlib
import re

import items
from facts import Facts
from rows import Form

FACTS = Facts(pathlib.Path(__file__).resolve().parents[2])
EXPORT = re.compile(r"pub use ([\w:]+?)(?:::\{([^}]*)\}|::(\w+));")
KINDS = ("struct", "enum", "trait", "fn")


class Missing(AssertionError):
    """An item that a crate does not export, or not as it is promised."""


# ---- where an item is

@functools.cache
def exports(crate):
    """The names that a crate's lib.rt exports, each with the crate that the path leads to."""
    found = {}
    for path, several, one in EXPORT.findall(FACTS.read(f"crates/{crate}/src/lib.rt")):
        home = path.split("::")[0]
        for name in re.findall(r"\w+", several) or [one]:
            found[name] = home if home in FACTS.crates else crate
    return found


def home_of(crate, name):
    """The crate that defines what a crate exports by a name."""
    if name not in exports(crate):
        raise Missing(f"crates/{crate}/src/lib.rt exports no {name}")
    home = exports(crate)[name]
    return crate if home == crate else home_of(home, name)


@functools.cache
def sources_of(crate):
    """The code of a crate, a file each."""
    return [items.source_of(text) for path, text in FACTS.sources.items() if path.startswith(f"crates/{crate}/src/") and path.endswith(".rt")]


def top_items(crate):
    """All items of a crate that stand in no other one, each with its source."""
    for source in sources_of(crate):
        for item in items.items(source, 0, len(source.words)):
            yield source, item


def item_named(crate, name):
    """The public item of a crate by its name."""
    for source, item in top_items(crate):
        if item.visibility == "pub" and source.words[item.keyword] in KINDS and source.words[item.keyword + 1] == name:
            return source, item
    raise Missing(f"no source of {crate} has a public {name}")


def method_of(crate, kind, name):
    """A public method of a type, or one of a trait."""
    for source, item in top_items(crate):
        keyword = source.words[item.keyword]
        head = items.type_name(source.words[item.keyword + 1:item.head_end]) if keyword == "impl" else ""
        if head == kind:
            for inner in items.items(source, item.head_end + 1, item.end - 1):
                if inner.visibility == "pub" and source.words[inner.keyword:inner.keyword + 2] == ["fn", name]:
                    return source, inner
    raise Missing(f"no source of {crate} has a public method {kind}::{name}")


def waiting_calls():
    """The public functions that may wait for threads, and the types with methods that may, as (crate, name)."""
    found = set()
    for crate in FACTS.crates:
        for source, item in top_items(crate) if not crate.endswith("_tests") else ():
            head = source.words[item.keyword:item.head_end]
            kind = head[0]
            if "Wait" in head and (kind == "fn" and item.visibility == "pub" or kind == "impl"):
                name = head[1] if kind == "fn" else items.type_name(head[1:]).split(" as ")[0].split("<")[0]
                found |= {(crate, name)} if name in exports(crate) else set()
    return found


# ---- what an item is

def signature(source, item):
    """A function's generics, arguments and result: the arguments as names and types."""
    words = source.words
    opening = item.keyword + 2
    while words[opening] != "(":
        opening += 1
    end = source.ends[opening] + 1
    while end < item.head_end and words[end] not in items.CLAUSES:
        end += 1
    arguments = [argument_of(part) for part in items.parts(source, opening + 1, source.ends[opening])]
    return items.spaced(words[item.keyword + 2:opening]), arguments, items.spaced(words[source.ends[opening] + 1:end])


def argument_of(words):
    """An argument's name, or none, and its type; `self` as it is written."""
    if words[0] == "mut":
        words = words[1:]
    if len(words) > 2 and words[1] == ":" and words[0] != "self":
        return words[0], items.spaced(words[2:])
    return None, items.spaced(words)


def fields(source, item):
    """The public fields of a struct, each with its type."""
    if source.words[item.head_end] != "{":
        return []
    return [items.spaced(part[1:]) for part in map(without_marks, items.parts(source, item.head_end + 1, item.end - 1))
            if part[0] == "pub" and part[1] != "("]


def variants(source, item):
    """The variants of an enum, each with what it holds."""
    parts = map(without_marks, items.parts(source, item.head_end + 1, item.end - 1))
    return [items.spaced(part[:part.index("=")] if "=" in part else part) for part in parts]


def without_marks(words):
    """Words without the attributes before them."""
    while words[0] == "#":
        depth, at = 0, 1
        while depth or at == 1:
            depth += {"[": 1, "]": -1}.get(words[at], 0)
            at += 1
        words = words[at:]
    return words


def methods(source, item):
    """The methods of a trait, each with its signature."""
    for inner in items.items(source, item.head_end + 1, item.end - 1):
        if source.words[inner.keyword] == "fn":
            yield source.words[inner.keyword + 1], signature(source, inner)


# ---- comparing

def same_signature(name, wanted, found):
    """Compares a signature with the promised one, in which an argument without a name may have any."""
    def shown(one):
        return f"fn {name}{one[0]}({', '.join(kind if label is None else f'{label}: {kind}' for label, kind in one[1])}) {one[2]}".strip()

    arguments = [(label and other, kind) for (label, _), (other, kind) in zip(wanted[1], found[1])]
    if wanted != (found[0], arguments, found[2]) or len(wanted[1]) != len(found[1]):
        raise Missing(f"promised is {shown(wanted)}, and the source has {shown(found)}")


def same_list(name, wanted, found):
    """Compares fields or variants with the promised ones, behind which there may be others where `..` is the last."""
    if wanted[-1:] == [".."]:
        found = [one for one in found if one in wanted] + [".."]
    if wanted != found:
        raise Missing(f"promised is {name}: {', '.join(wanted)}; the source has {', '.join(found)}")


def listed(text):
    """The parts of a promised list, which commas part."""
    source = items.source_of(text.replace("..", "__more"))
    return [items.spaced(part).replace("__more", "..") for part in items.parts(source, 0, len(source.words))]


def check_trait(name, text, source, item):
    """Compares a trait's bounds and methods with the promised ones."""
    bounds, _, promised = text.partition("fn ")
    head = items.spaced(source.words[item.keyword + 2:item.head_end])
    if bounds.strip() != head:
        raise Missing(f"promised is trait {name}{bounds.strip()}, and the source has trait {name}{head}")
    open_ended = promised.endswith(" ..")
    found = dict(methods(source, item))
    wanted = {}
    for method in promised.removesuffix(" ..").split("; "):
        made = items.source_of(f"fn {method.removeprefix('fn ')};")
        made_item = next(items.items(made, 0, len(made.words)))
        wanted[made.words[1]] = signature(made, made_item)
    if not open_ended and [*wanted] != [*found] or not {*wanted} <= {*found}:
        raise Missing(f"promised are the methods {', '.join(wanted)} of {name}, and the source has {', '.join(found)}")
    for method, one in wanted.items():
        same_signature(f"{name}::{method}", one, found[method])


def check_item(row):
    """An item that a crate exports is what it is promised to be."""
    crate, name = row["crate"], row["item"]
    kind, _, text = re.fullmatch(r"(\w+)( ?)(.*)", row["is"], re.S).groups()
    owner, _, method = name.partition("::")
    source, item = method_of(home_of(crate, owner), owner, method) if method else item_named(home_of(crate, owner), owner)
    if source.words[item.keyword] != kind:
        raise Missing(f"{name} is promised as {kind}, and is {source.words[item.keyword]}")
    if kind == "fn":
        made = items.source_of(f"fn promised{text};")
        same_signature(name, signature(made, next(items.items(made, 0, len(made.words)))), signature(source, item))
    elif kind == "trait":
        check_trait(name, text, source, item)
    else:
        same_list(name, listed(text), (fields if kind == "struct" else variants)(source, item))


def check_libraries(row):
    """The closure of a crate has just these libraries of the toolchain."""
    found, waiting = set(), [row["crate"]]
    while waiting:
        below = FACTS.crates[waiting.pop()]
        waiting += [name for name in below if name in FACTS.crates]
        found |= {name for name in below if name not in FACTS.crates}
    same_list(f"libraries of {row['crate']}", row["libraries"].split(), sorted(found))


def check_edit(row):
    """An edit is in the folder of its crate that the gate tries."""
    path = f"crates/{row['crate']}/must-fail/{row['edit']}.edit"
    if path not in FACTS.files:
        raise Missing(f"there is no {path}, which the gate has to try")


FORMS = {
    "surface": Form(check_item, "crate item is"),
    "libraries": Form(check_libraries, "crate libraries"),
    "wrong_bodies": Form(check_edit, "mistake crate edit"),
}
