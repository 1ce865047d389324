"""Which files of a folder are tests, which belong to one, and which are ignored."""
import difflib
import os
import re
from typing import NamedTuple

from .files import Refused, files_in, shown
from .flags import flags_of, is_file

SOURCES = (".c", ".cpp", ".cc", ".S")
BESIDE = tuple("in out signature exit end budget keys flags cases".split())
BESIDE_CASE = tuple("in out signature exit end budget keys".split())
DEFAULTS = "defaults"
KNOWN = re.compile(r"(.*\.(h|hpp|hh|ld|md)|Makefile|README(\.(md|txt|rst|adoc|html))?|defaults\.keys)")
NAME = re.compile(r"[A-Za-z0-9._-]{1,64}")
EXPECTED_NAME = 'expected 1 to 64 ASCII letters, digits, ".", "_" and "-"'
ENDINGS = f"tests end in {', '.join(SOURCES[:-1])} or {SOURCES[-1]}"
# Endings, in any case, of what a person may take for a test here, though the kit builds none of it.
LIKE_SOURCES = """.c .cpp .cc .cxx .c++ .cp .s .sx .asm .i .ii .m .mm .d .rs .go .adb .f90 .zig""".split()
LIKE_BESIDE = [f".{it}" for it in BESIDE]


class Test(NamedTuple):
    """A source that is a test: its path without the ending, from here and from the tests' folder, and its job's name."""

    source: str
    stem: str
    place: str
    name: str


class Ignored(NamedTuple):
    """A file that no test is built from, why, and whether a person may take it for a test or for a part of one."""

    path: str
    why: str
    looks_like_test: bool


class Found(NamedTuple):
    """The tests of a folder and of those in it, what is wrong with the folder as a whole, and what is ignored."""

    tests: list
    faults: list
    ignored: list


def found_in(top):
    """What is in the folder, in the order of the jobs' names."""
    found = Found([], [], [])
    folders = list(folders_in(top, found.ignored))
    helpers = helpers_of(folders)
    for folder, files in folders:
        look_through(folder, files, os.path.relpath(folder, top), helpers, found)
    found.tests.sort(key=lambda test: test.name)
    if not found.tests and not found.faults:
        raise Refused(f"{shown(top)}: error: no tests found: {ENDINGS}")
    return found


def arch_tests_in(folder, ending=".S"):
    """The architecture tests of a folder, or those of which it has the images."""
    tests = [test_of(os.path.join(folder, it), it.removesuffix(ending)) for it in files_in(folder) if it.endswith(ending)]
    if not tests:
        raise Refused(f"{shown(folder)}: error: no tests found: expected files *{ending}")
    return tests


def chosen_of(tests, names):
    """The tests of these names, which may be those of cases; all tests if there are no names."""
    chosen = {}
    for name in names:
        found = [it for it in tests if it.name == name or name in case_names(it)]
        if not found:
            known = [job for it in tests for job in [it.name, *case_names(it)]]
            near = difflib.get_close_matches(name, known, 1, 0.4)
            raise Refused(f'error: no test "{shown(name)}"' + (f'\nhelp: did you mean "{near[0]}"?' if near else ""))
        chosen.update({it.name: it for it in found})
    return list(chosen.values()) if names else tests


def case_names(test):
    """The names of a test's jobs, where it has a folder of cases."""
    folder = f"{test.stem}.cases"
    files = files_in(folder) if os.path.isdir(folder) else []
    return sorted({f"{test.name}.{it.rpartition('.')[0]}" for it in files if it.rpartition(".")[2] in BESIDE_CASE})


def folders_in(folder, ignored):
    """The folder and those below it, each with its files. What is built, or hidden, or of one test, is not looked through."""
    inner = [it for it in files_in(folder) if os.path.isdir(os.path.join(folder, it))]
    yield folder, [it for it in files_in(folder) if it not in inner]
    for it in inner:
        path = os.path.join(folder, it)
        if it == "build" or it.endswith(".cases"):
            continue
        if os.path.islink(path):
            ignored.append(Ignored(path, "a link to a folder", True))
        else:
            yield from folders_in(path, ignored)


def own_path(path):
    """The path of a file itself, however the folder that has it is spelt: a link and the file that it refers to are two."""
    return os.path.join(os.path.realpath(os.path.dirname(path)), os.path.basename(path))


def helpers_of(folders):
    """The files that options of tests name, such as a further source: they are not tests of their own. A link to one, or a file that one
    is a link to, is a test nevertheless: nobody named it."""
    helpers = set()
    for folder, files in folders:
        for path in (os.path.join(folder, it) for it in files if it.endswith(".flags")):
            try:
                words, responses = flags_of(path)
            except Refused:
                continue  # The test is refused for it.
            helpers.update(own_path(it) for it in [*words, *responses] if is_file(it))
    return helpers


def look_through(folder, files, place, helpers, found):
    """Puts each file of one folder where it belongs: to the tests, to what is wrong, or to what is ignored."""
    stems = {}
    others = []
    for file in files:
        stem, ending = os.path.splitext(file)
        path = os.path.join(folder, file)
        if own_path(path) in helpers or KNOWN.fullmatch(file):
            continue
        if ending not in SOURCES or not is_file(path):
            others.append(file)
        elif stem in stems:
            found.faults.append(f'{shown(path)}: error: duplicate test "{shown(stem)}": {shown(stems[stem].source)} has the same name')
        else:
            stems[stem] = test_of(path, os.path.normpath(os.path.join(place, stem)))
    for test in stems.values():
        check_name(test, found)
    found.tests.extend(stems.values())
    cases = [it for it in files_in(folder) if it.endswith(".cases")]
    for file in others + [it for it in cases if it not in others]:
        place_other(folder, file, stems, found)


def test_of(path, place):
    """A test of this source."""
    return Test(path, os.path.splitext(path)[0], place, place.replace(os.sep, "."))


def check_name(test, found):
    """Refuses a test whose name cannot be a job's."""
    if not NAME.fullmatch(test.name):
        found.faults.append(not_a_name(test.name, test.source))
    if os.path.basename(test.stem) == DEFAULTS:
        found.faults.append(f'{shown(test.source)}: error: invalid test name "{DEFAULTS}": {DEFAULTS}.keys applies to all tests of its folder')


def not_a_name(name, path):
    """What is wrong with the name of a job."""
    return f'{shown(path)}: error: invalid job name "{shown(name)}": {EXPECTED_NAME}'


def place_other(folder, file, stems, found):
    """Reports a file that is not a source. One that belongs to a missing test is wrong: most often its name is misspelt."""
    stem, _, kind = file.rpartition(".")
    path = os.path.join(folder, file)
    if not stem or kind not in BESIDE:
        found.ignored.append(Ignored(path, *why_ignored(path, file, stems)))
    elif stem not in stems:
        found.faults.append(f"{shown(path)}: error: {why_astray(os.path.join(folder, stem))}")


def why_ignored(path, file, stems):
    """Why a file is ignored, and whether it looks like a test or a part of one."""
    stem, ending = os.path.splitext(file)
    if not is_file(path):
        return ("a dangling link" if os.path.islink(path) else "not a regular file"), True
    if ending.lower() in LIKE_SOURCES:
        return f"{ENDINGS}", True
    if ending.lower() in LIKE_BESIDE or stem in stems or file.partition(".")[0] in stems:
        return f"files beside a test end in .{', .'.join(BESIDE)}", True
    return "not a test or a file of one", False


def why_astray(stem):
    """Why there is no test of this path, which a file beside it belongs to."""
    for source in (stem + ending for ending in SOURCES):
        if os.path.exists(source):
            return f"belongs to {shown(source)}, which is not a test: a .flags file names it"
    return f"belongs to a missing test: expected {shown(stem)}{SOURCES[0]}, {', '.join(SOURCES[1:-1])} or {SOURCES[-1]}"


def cases_of(test, ignored):
    """The names of a test's cases, in order, or None if it has no folder of them."""
    folder = f"{test.stem}.cases"
    if not os.path.lexists(folder):
        return None
    names = set()
    for file in files_in(folder):
        stem, _, kind = file.rpartition(".")
        path = f"{folder}/{file}"
        if stem and kind in BESIDE_CASE:
            names.add(stem)
        elif kind == "flags":
            raise Refused(f"{shown(path)}: error: all cases share one image: expected options in {shown(test.stem)}.flags")
        else:
            ignored.append(Ignored(path, f"files of a case end in .{', .'.join(BESIDE_CASE)}", True))
    if not names:
        raise Refused(f"{shown(folder)}: error: no cases found: expected CASE.in, .out, .exit or .end")
    for kind in ("in", "out", "signature", "exit", "end"):
        if os.path.lexists(f"{test.stem}.{kind}"):
            raise Refused(f"{shown(test.stem)}.{kind}: error: cannot be used with {shown(folder)}: each case has its own .{kind}")
    return sorted(names)
