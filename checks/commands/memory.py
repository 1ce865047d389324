#!/usr/bin/env python3
"""Code never invents the error that memory ran out, or that a thread could not be started. A value that says so (AllocError, AllocFailed,
or a variant OutOfMemory or NoWorker) is made in the sources only
  - in an `impl From<AllocError>` or `From<AllocFailed<..>>`,
  - in an arm of a `match` that passes on another error's variant of that name, or the only error of a growth (`Err(_)` of a `push`),
  - directly below a comment that says why the error is exactly this.
No contract can reject a body that invents such an error, since memory can run out at any time: this check rejects it. It fails if such a
value is made at any other place, and if a comment `// Out of memory: ..` or `// No worker: ..` is above no such line. It does not see an
allocation that is larger than needed.

    checks/commands/memory.py           reads crates/*/src, except for tests
"""
import os
import re
import sys

TOP = os.path.dirname(os.path.dirname(os.path.dirname(os.path.abspath(__file__))))

REASON = re.compile(r"// .+\.$")

MARKER = re.compile(r"// (Out of memory|No worker): .+\.$")

VALUE = re.compile(r"\b(AllocError|AllocFailed|OutOfMemory|NoWorker)\b")


def sources():
    """The files of code, without those that only tests have."""
    for crate in sorted(os.listdir(f"{TOP}/crates")):
        source = f"{TOP}/crates/{crate}/src"
        if crate.endswith("_tests") or not os.path.isdir(source):
            continue
        root = next(name for name in ("lib.rt", "main.rt") if os.path.exists(f"{source}/{name}"))
        with open(f"{source}/{root}") as file:
            tests = re.findall(r"#\[cfg\(test\)\]\s*mod (\w+);", file.read())
        for folder, _, names in os.walk(source):
            for name in sorted(names):
                path = f"{folder}/{name}"
                if name.endswith(".rt") and os.path.relpath(path, source).removesuffix(".rt").split("/")[0] not in tests:
                    yield path


def plain(text):
    """The text without what stands in quotes, without comments, and without clauses, whose braces may go over lines."""
    text = re.sub(r'"(\\.|[^"\\])*"', lambda found: '"' + re.sub(r"[^\n]", ".", found[0][1:-1]) + '"', text)
    text = re.sub(r"//[^\n]*", "", text)
    out, at = [], 0
    for found in re.finditer(r"^[ \t]*(?:ensures|requires|ghost)\b[^\n{;]*", text, re.M):
        if found.start() < at:
            continue
        out.append(text[at:found.start()])
        end = found.end()
        if text[end:end + 1] == "{":
            depth = 0
            while True:
                depth += {"{": 1, "}": -1}.get(text[end], 0)
                end += 1
                if depth == 0:
                    break
        else:
            end = text.index("\n", end)
        out.append("\n" * text.count("\n", found.start(), end))
        at = end
    return "".join(out) + text[at:]


def is_type(line):
    """Whether the line only declares: a use, an impl's head, a signature, a parameter, a field, a variant."""
    return bool(re.match(r"(pub |pub\(crate\) )?(use|impl|fn|type|trait|struct|enum)\b", line) or re.match(r"\) -> ", line)
                or re.match(r"(pub |pub\(crate\) )?\w+: (Result<\(\), \w+>|&?\[?[A-Z][\w<>', ]*\]?),$", line)
                or re.match(r"(OutOfMemory|NoWorker),$", line))


def made(path):
    """The numbers of the lines of a file that make such a value, those of its comments, and those of the comments that name the error."""
    with open(path) as file:
        text = file.read()
    lines, reasons, markers, blocks, passes_on = [], [], [], [], False
    for number, (line, shown) in enumerate(zip(plain(text).split("\n"), text.split("\n"))):
        line = line.strip()
        if REASON.match(shown.strip()):
            reasons.append(number)
        if MARKER.match(shown.strip()):
            markers.append(number)
        if re.match(r"(pub |pub\(crate\) )?use .*\b(AllocError|AllocFailed|OutOfMemory|NoWorker) as ", line):
            lines.append(number)
        passes_on = passes_on or bool(re.match(r"impl(<.*>)? From<Alloc(Error|Failed<\w+>)> for ", line))
        is_passed_on = passes_on or bool(blocks) and (is_arm(blocks[-1]) or is_arm_of_growth(blocks[-1], line))
        if VALUE.search(value_of(line)) and not is_passed_on and not is_type(line):
            lines.append(number)
        for sign in re.findall(r"[{}()\[\]]", line):
            if sign in "{([":
                blocks.append(line)
            elif blocks:
                blocks.pop()
        passes_on = passes_on and bool(blocks)
    return lines, reasons, markers


def is_arm(line):
    """Whether a line begins an arm of a `match` whose pattern names such a value."""
    pattern, arrow, _ = line.partition(" => ")
    return bool(arrow and VALUE.search(pattern))


def is_arm_of_growth(above, line):
    """Whether a line is the arm for the error of a `match` on the growth of a vector, or on a value's text that goes to a string: the one
    error of both is the want of memory."""
    return bool(line.startswith("Err(_) => ") and re.match(r"match ([\w.]+\.(push|reserve)|Display::fmt)\(", above))


def value_of(line):
    """A line without types, and without patterns that pass a variant of the name on."""
    if is_arm(line):
        return ""
    line = re.sub(r"== \w+::OutOfMemory", "", line)
    return re.sub(r"-> [\w:]*Result<.*", "", line)


def main():
    faults, count = [], 0
    for path in sources():
        lines, reasons, markers = made(path)
        count += len(lines)
        name = f"crates/{path.split('/crates/')[1]}"
        faults += [f"{name}:{at + 1}: an invented error: expected a comment directly above that says why" for at in lines if at - 1 not in reasons]
        faults += [f"{name}:{at + 1}: no such error below this comment" for at in markers if at + 1 not in lines]
    for fault in faults:
        print(f"checks/commands/memory.py: {fault}", file=sys.stderr)
    if faults:
        sys.exit(1)
    print(f"checks/commands/memory.py: {count} places, each with a reason")


main()
