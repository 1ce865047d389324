#!/usr/bin/env python3
"""Count the shape of the sources: crates and their edges, large functions and files, and chains of calls.

    docs/shape.py                    print all counts
    docs/shape.py --calls FROM TO    print the shortest chain of calls, as from run_rvtest to Machine::run

What is counted:
- Crates and edges are those of crates.txt. Code names an edge if it has `NAME::` or `use NAME` in src outside ghost items, clauses and
  comments. Definitions, contracts and proofs name it by `Rattle.NAME`.
- The lines of a function are those from `fn` to its last brace, without clauses, ghost items, comments and empty lines. Its arguments do
  not include self, and its generic parameters include neither lifetimes nor those of its impl. Tests are included.
- The lines of a file are all of its lines.
- Calls are resolved by name, without types. A call may reach every function that has this name and this many arguments, is in the same
  crate or in one below it, and belongs to the type or crate that the call names. A call of a trait's method may reach each of its impls. So
  a chain may have a step that no run takes. Calls of function values are missing.
"""
import argparse
import collections
import dataclasses
import pathlib
import re
import sys

TOP = pathlib.Path(__file__).resolve().parent.parent
MOST_LINES, MOST_ARGUMENTS, MOST_GENERICS, MOST_FILE_LINES = 40, 5, 4, 300
# A string, a character or a comment, in which braces do not count.
OPAQUE = re.compile(r'//[^\n]*|r(#*)".*?"\1|b?"(?:\\.|[^"\\])*"|b?\'(?:\\(?:x..|u\{\w+\}|.)|[^\\\'\n])\'', re.S)
GHOST = re.compile(r"^[ \t]*(?:(?:pub(?:\(crate\))? )?(ghost)|ensures|requires|decreases|invariant)\b", re.M)
CLOSING = {"(": ")", "[": "]", "{": "}", "<": ">"}
HEAD = re.compile(r"^[ \t]*(?:pub(?:\([\w: ]+\))?\s+|unsafe\s+)*(impl|trait)\b|\bfn\b", re.M)
CALL = re.compile(r"(?:(\w+)(?:::<[^()]*>)?::|(\.)\s*)?\b([a-z]\w*)(?:::<[^()]*>)?\(")
KEYWORDS = {"if", "while", "match", "for", "return", "in", "fn", "loop", "let", "else", "move", "as"}


# ---- texts

def blanked(text):
    """The text with a space for every character but line feeds."""
    return re.sub(r"[^\n]", " ", text)


def closing(text, at):
    """The index of the bracket that closes the one at an index. The `>` of `->` and `=>` closes nothing."""
    opened, closed, depth = text[at], CLOSING[text[at]], 0
    for end in range(at, len(text)):
        if text[end] == opened:
            depth += 1
        elif text[end] == closed and not (closed == ">" and text[end - 1] in "-="):
            depth -= 1
            if depth == 0:
                return end
    return len(text) - 1


def end_of_ghost(text, at, is_item):
    """The index after a ghost item or a clause, which ends in braces, a proof after `by`, or, if it is an item, a semicolon or comma."""
    sign = re.compile(r"[{;]|\n[ \t]*\n").search(text, at)
    if sign is None or sign[0] != "{":
        return sign.end() if sign else len(text)
    end = closing(text, sign.start()) + 1
    while more := re.compile(r"\s*(?:by|=)\s*(?=\{)").match(text, end):
        end = closing(text, more.end()) + 1
    rest = re.compile(r"[ \t]*[;,]").match(text, end)
    return rest.end() if rest and is_item else end


def code_of(text):
    """The code of a source: comments, the contents of strings, ghost items and clauses are blanked, so that line numbers stay."""
    text = OPAQUE.sub(lambda found: blanked(found[0]) if found[0].startswith("//") else f'"{blanked(found[0][1:-1])}"', text)
    out, at = [], 0
    for found in GHOST.finditer(text):
        if found.start() >= at:
            end = end_of_ghost(text, found.end(), bool(found[1]))
            out += [text[at:found.start()], blanked(text[found.start():end])]
            at = end
    return "".join(out) + text[at:]


def parts(text):
    """Split a list at its commas, except for those in brackets and between the bars of a closure."""
    found, start, at, in_closure = [], 0, 0, False
    while at < len(text):
        if text[at] in "([{":
            at = closing(text, at)
        elif text[at] == "<" and text[at - 1:at] != " ":
            at = closing(text, at)
        elif text[at] == "|":
            in_closure = not in_closure
        elif text[at] == "," and not in_closure:
            found.append(text[start:at].strip())
            start = at + 1
        at += 1
    return [part for part in [*found, text[start:].strip()] if part and not part.startswith("ghost ")]


# ---- crates

def crates():
    """Each crate of crates.txt with the crates that it uses."""
    lines = (TOP / "crates.txt").read_text(encoding="utf-8").split("\n")
    return {line.split(":")[0]: line.split(":")[1].split() for line in lines if line and not line.startswith("#")}


def reached(edges, name):
    """A crate, and all crates below it."""
    return {name}.union(*(reached(edges, near) for near in edges.get(name, [])))


def sources(crate):
    """The files of code of a crate, with their texts."""
    return {path: path.read_text(encoding="utf-8") for path in sorted((TOP / "crates" / crate / "src").rglob("*.rt"))}


def naming(crate, nears):
    """The crates among these that the code of a crate names, and those that its definitions, contracts and proofs name."""
    texts = sources(crate).values()
    code = set(re.findall(r"\b(?:\w+(?=::)|(?<=use )\w+)", "\n".join(map(code_of, texts))))
    proofs = (path for folder in ("specs", "proofs") for path in (TOP / "crates" / crate / folder).rglob("*.antt"))
    told = set(re.findall(r"\bRattle\.(\w+)", "\n".join([*texts, *(path.read_text(encoding="utf-8") for path in proofs)])))
    return code & {*nears}, told & {*nears}


# ---- functions

@dataclasses.dataclass(eq=False)
class Function:
    """A function: its crate, the type or trait that it belongs to, and the trait of its impl."""
    crate: str
    path: pathlib.Path
    line: int
    owner: str
    trait: str
    name: str
    generics: list
    arguments: list
    lines: int
    body: str
    has_self: bool

    def __str__(self):
        return f"{self.owner}::{self.name}" if self.owner else self.name

    def place(self):
        return f"{self.path.relative_to(TOP)}:{self.line}"


def bracketed(text, at, opened):
    """The text in the brackets that come next, and the index after them; an empty text if there are none."""
    found = re.compile(r"\s*" + re.escape(opened)).match(text, at)
    if not found:
        return "", at
    end = closing(text, found.end() - 1)
    return text[found.end():end], end + 1


def start_of_body(text, at):
    """The index of the brace or the semicolon at the end of a head."""
    while at < len(text) and text[at] not in "{;":
        at = closing(text, at) + 1 if text[at] in "([" else at + 1
    return at


def type_name(text):
    """The name of a type, without its path, its lifetimes and its parameters."""
    found = re.match(r"[&\s]*(?:'\w+\s+)?(?:mut\s+|dyn\s+)?(?:\w+::)*(\w+)", text)
    return found[1] if found else ""


def function_at(crate, path, text, at, owner):
    """The function whose name begins at an index, and the index of its body's end."""
    name = re.compile(r"\s*(\w+)").match(text, at)
    if not name:
        return None, at
    generics, after = bracketed(text, name.end(), "<")
    arguments, after = bracketed(text, after, "(")
    start = start_of_body(text, after)
    end = closing(text, start) if text[start:start + 1] == "{" else start
    lines = sum(1 for line in text[at:end + 1].split("\n") if line.strip())
    given = parts(arguments)
    has_self = bool(given) and re.match(r"(?:&\s*(?:'\w+\s+)?)?(?:mut\s+)?self\b", given[0]) is not None
    kinds = [one for one in parts(generics) if not one.startswith("'")]
    line = text.count("\n", 0, name.start(1)) + 1
    return Function(crate, path, line, *owner, name[1], kinds, given[has_self:], lines, text[start:end + 1], has_self), end


def owner_at(text, at, kind):
    """The type and the trait of an impl, or a trait itself, from an index in its head; and the index of its end."""
    _, at = bracketed(text, at, "<") if kind == "impl" else ("", at)
    start = start_of_body(text, at)
    first, is_of_trait, second = re.sub(r"\bwhere\b.*", "", text[at:start], flags=re.S).partition(" for ")
    owner = (type_name(second), type_name(first)) if is_of_trait else (type_name(first), "")
    return owner, closing(text, start) if text[start:start + 1] == "{" else start


def functions_of(crate, path, text):
    """The functions of a file. A function in the body of another counts as a part of it."""
    owners, at = [], 0
    while found := HEAD.search(text, at):
        owners = [(owner, end) for owner, end in owners if end > found.start()]
        at = found.end()
        if found[1]:
            owner, end = owner_at(text, at, found[1])
            owners.append((owner, end))
            continue
        function, end = function_at(crate, path, text, at, owners[-1][0] if owners else ("", ""))
        if function:
            yield function
            at = end


def all_functions(edges):
    """The functions of all crates."""
    return [
        function for crate in edges for path, text in sources(crate).items() for function in functions_of(crate, path, code_of(text))
    ]


# ---- calls

class Calls:
    """The call graph, as far as names tell it."""

    def __init__(self, edges, functions):
        self.below = {crate: reached(edges, crate) for crate in edges}
        self.named, self.impls = collections.defaultdict(list), collections.defaultdict(list)
        for function in functions:
            self.named[function.name].append(function)
            if function.trait:
                self.impls[function.trait, function.name].append(function)

    def candidates(self, caller, qualifier, is_method, name, count):
        """The functions that a call may reach."""
        found = [function for function in self.named[name] if function.crate in self.below[caller.crate]]
        if is_method:
            return [function for function in found if function.has_self and len(function.arguments) == count]
        qualifier = caller.owner if qualifier == "Self" else qualifier
        found = [function for function in found if len(function.arguments) + function.has_self == count]
        if qualifier and qualifier[0].isupper():
            return [function for function in found if qualifier in (function.owner, function.trait)]
        found = [function for function in found if not function.owner]
        if not qualifier:
            return [function for function in found if function.path == caller.path] or found
        return [function for function in found if qualifier in (function.crate, function.path.stem, "crate", "super")]

    def of(self, caller):
        """The functions that a function may call, each once. A call of a trait's method is a call of its impls."""
        found = {}
        for call in CALL.finditer(caller.body):
            if call[3] not in KEYWORDS:
                given, _ = bracketed(caller.body, call.end() - 1, "(")
                for near in self.candidates(caller, call[1], bool(call[2]), call[3], len(parts(given))):
                    found.update(dict.fromkeys([near, *self.impls[near.owner, near.name]]))
        return found


def functions_named(functions, words):
    """The functions of this name. It may have the name of a type, a trait or a crate in front."""
    qualifier, _, name = words.rpartition("::")
    found = [one for one in functions if one.name == name and (not qualifier or qualifier in (one.owner, one.trait, one.crate))]
    if not found:
        sys.exit(f'docs/shape.py: unknown function "{words}": expected NAME, TYPE::NAME or CRATE::NAME')
    return found


def chain(functions, edges, start, goal):
    """The shortest chain of calls from a function of one name to a function of another; empty if there is none."""
    calls, goals = Calls(edges, functions), {*functions_named(functions, goal)}
    before = dict.fromkeys(functions_named(functions, start))
    waiting = collections.deque(before)
    while waiting:
        function = waiting.popleft()
        if function in goals:
            found = [function]
            while before[found[0]]:
                found.insert(0, before[found[0]])
            return found
        for near in calls.of(function):
            if near not in before:
                before[near] = function
                waiting.append(near)
    return []


# ---- what is printed

def listing(title, lines):
    print(f"{len(lines):6} {title}", *(f"         {line}" for line in lines), sep="\n")


def print_crates(edges):
    """Print the number of crates, and of their edges by what names them."""
    inner = {crate: [near for near in nears if near in edges] for crate, nears in edges.items()}
    outer = sum(len(nears) for nears in edges.values()) - sum(map(len, inner.values()))
    names = {crate: naming(crate, nears) for crate, nears in inner.items()}
    code = [f"{crate}: {near}" for crate, nears in inner.items() for near in nears if near in names[crate][0]]
    told = [f"{crate}: {near}" for crate, nears in inner.items() for near in nears if near in names[crate][1] - names[crate][0]]
    rest = [f"{crate}: {near}" for crate, nears in inner.items() for near in nears if near not in names[crate][0] | names[crate][1]]
    print(f"{len(edges):6} crates in crates.txt")
    print(f"{len(code) + len(told) + len(rest):6} edges to crates of the repository")
    print(f"{len(code):6} of these are named by code")
    listing("only by definitions, contracts and proofs", told)
    listing("by nothing", rest)
    print(f"{outer:6} edges to crates of the toolchain")


def print_functions(functions):
    """Print the functions that exceed a limit."""
    print(f"{len(functions):6} functions")
    measures = (
        (f"of more than {MOST_LINES} lines", MOST_LINES, lambda one: one.lines),
        (f"with more than {MOST_ARGUMENTS} arguments", MOST_ARGUMENTS, lambda one: len(one.arguments)),
        (f"with more than {MOST_GENERICS} generic parameters", MOST_GENERICS, lambda one: len(one.generics)),
    )
    for title, most, size in measures:
        found = sorted((one for one in functions if size(one) > most), key=lambda one: -size(one))
        listing(title, [f"{one.place()}: {one}: {size(one)}" for one in found])


def print_files(edges):
    sizes = {path: text.count("\n") for crate in edges for path, text in sources(crate).items()}
    print(f"{len(sizes):6} files in src")
    found = sorted((path for path in sizes if sizes[path] > MOST_FILE_LINES), key=lambda path: -sizes[path])
    listing(f"of more than {MOST_FILE_LINES} lines", [f"{path.relative_to(TOP)}: {sizes[path]}" for path in found])


def main():
    parser = argparse.ArgumentParser(prog="docs/shape.py", description=__doc__.split("\n", maxsplit=1)[0], allow_abbrev=False)
    parser.add_argument("--calls", nargs=2, metavar=("FROM", "TO"), help="print the shortest chain of calls between these functions")
    words, edges = parser.parse_args(), crates()
    functions = all_functions(edges)
    if words.calls is None:
        print_crates(edges)
        print_functions(functions)
        print_files(edges)
        return
    found = chain(functions, edges, *words.calls)
    if not found:
        sys.exit(f"docs/shape.py: no chain of calls from {words.calls[0]} to {words.calls[1]}")
    print(*(f"{number:3} {one.place()}: {one}" for number, one in enumerate(found)), sep="\n")


if __name__ == "__main__":
    main()
