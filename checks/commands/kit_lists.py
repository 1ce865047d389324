#!/usr/bin/env python3
"""checks/commands/kit_lists.py: tries what the firmware kit does before a compiler is called: which files are tests, what is said of the others and of wrong
ones, the words of options, and when an image is built again, by a stand-in for the compiler.

    checks/commands/kit_lists.py

It needs python3 and the programs, for the errors that rvtest finds in a list.
"""
import contextlib
import os
import pathlib
import shutil
import subprocess
import sys
import tempfile

sys.dont_write_bytecode = True
TOP = pathlib.Path(__file__).resolve().parents[2]
KIT = TOP / "firmware"
CC = TOP / "checks/commands/kit_lists.d/cc"
sys.path[:0] = [str(KIT)]
from building.records import paths_in_words  # noqa: E402
from building.rules import files_in_linked, files_in_rules  # noqa: E402
from building.steps import names_below  # noqa: E402
from listing.files import Refused, shown  # noqa: E402
from listing.flags import expanded, inputs_of, response_words, words_in  # noqa: E402


class Wrong(Exception):
    """What is not as it should be."""


def expect(what, found, expected):
    """Whether something is what it should be."""
    if found != expected:
        raise Wrong(f"{what}: found {found!r}, expected {expected!r}")


def put(path, text=""):
    """Writes a file, and the folders that it is in."""
    path = pathlib.Path(path)
    path.parent.mkdir(parents=True, exist_ok=True)
    path.write_bytes(text if isinstance(text, bytes) else text.encode(errors="surrogateescape"))


def call(program, *words, status=0, **variables):
    """Runs a program of the kit, and gives what it prints on both streams."""
    done = subprocess.run([sys.executable, KIT / program, *words], capture_output=True, check=False, env={**os.environ, **variables})
    out, err = (it.decode("utf-8", "surrogateescape") for it in (done.stdout, done.stderr))
    expect(f"{program} {' '.join(map(repr, words))}: status, beside {err!r}", done.returncode, status)
    return out, err


def made_tests(*names):
    """A new folder t with these empty files."""
    shutil.rmtree("t", ignore_errors=True)
    for name in names:
        put(f"t/{name}")


# ---- which files are tests

def ignored_files():
    """Every file that is ignored is named. Those that look like a test, or like a part of one, fail a strict list."""
    alike = ["b.s", "b.cxx", "b.C", "b.c++", "a.OUT", "a.expected", "a.txt", "b.asm", "b.CPP", "other.OUT", "a.cases/x.OUT", "link", "dangling.c"]
    others = ["notes.txt", "data.bin", "Makefile.old"]
    silent = ["a.h", "a.md", "README", "README.md", "README.txt", "Makefile", "a.ld", ".hidden.c", "build/x.c"]
    for name in alike + others + silent:
        made_tests("a.c")
        if name == "link":
            put("elsewhere/x.c")
            os.symlink("../elsewhere", "t/link")
        elif name == "dangling.c":
            os.symlink("gone", "t/dangling.c")
        else:
            put(f"t/{name}")
        if name.startswith("a.cases"):
            put("t/a.cases/x.in")
        put("t/build/a.elf")
        kind = ["note", "warning"][name in alike]
        _, err = call("mklist", "t")
        expect(f"whether {name} is named in {err!r}", f"t/{name}: {kind}: ignored: " in err, name not in silent)
        _, err = call("mklist", "t", "--strict", status=name in alike)
        expect(f"whether {name} is an error in {err!r}", f"t/{name}: error: ignored: " in err, name in alike)
    made_tests("README.c", "build/README.elf")
    expect("whether README.c is a test", 'name = "README"' in call("mklist", "t", "--strict")[0], True)
    return f"{len(alike)} files that look like tests, {len(others)} that do not, {len(silent)} that are known"


def control_characters():
    """Nothing that a terminal would obey is printed as it is."""
    for sign, escape in (("\x1b", "\\x1b"), ("\u202e", "\\u{202e}"), ("\x9b", "\\u{9b}"), ("\udc9b", "\\x9b"), ("\u200b", "\\u{200b}"), ("\n", "\\n")):
        for name in (f"b{sign}.txt", f"b{sign}.c", f"b{sign}.out", f"a.{sign}", f"a{sign}.flags"):
            made_tests("a.c", name, "build/a.elf")
            status = 2 if name.endswith((".c", ".out", ".flags")) else 0
            _, err = call("mklist", "t", status=status)
            expect(f"whether {name!r} is escaped in {err!r}", (sign in err.rstrip("\n"), escape in err), (False, True))
        for file in ("a.exit", "a.end", "a.keys", "a.flags"):
            made_tests("a.c", "build/a.elf")
            put(f"t/{file}", f"x{sign}y" if file != "a.flags" else f"'-ox{sign}y'")
            out, err = call("mklist", "t", status=1)
            expect(f"whether {file} is escaped in {err!r} and {out!r}", sign != "\n" and sign in err + out, False)
        _, err = call("mklist", f"--x{sign}", status=2)
        expect(f"whether words are escaped in {err!r}", (sign != "\n" and sign in err, escape in err), (False, True))
    expect("letters", shown('é"\\ 𝄞'), 'é"\\ 𝄞')
    return "control and format characters are escaped"


# ---- what is wrong with a test stops it alone

BROKEN = [
    ("a.exit", "5 6", "t/a.exit:1: error: expected one word, found 2"),
    ("a.exit", "-2147483649", 't/a.exit:1: error: expected an integer from -2147483648 to 4294967295, found "-2147483649"'),
    ("a.end", "spin", 't/a.end:1: error: unknown end "spin": expected budget, '),
    ("a.keys", "x = 1\ny = ", "t/a.keys:2: error: invalid TOML: invalid value"),
    ("a.keys", "misaligned = 'allow'\n\n[x]\n", 't/a.keys:3: error: "[x]" begins a table: expected lines "key = value"'),
    ("a.keys", "misaligned = 'allow'\nname = 'x'\n", 't/a.keys:2: error: "name" cannot be set'),
    ("a.keys", b"x = '\xff'", "t/a.keys:1: error: invalid UTF-8 at byte 5"),
    ("a.keys", "# one\nmisalinged = 'allow'\n", 't/a.keys:2: error: unknown key "misalinged"'),
    ("a.keys", "isa = 5\n", "t/a.keys:1: error: "),
    ("a.flags", "-O2\n-DX=$(id)\n", 't/a.flags:2: error: "$" is not expanded or run here'),
    ("a.flags", "-O2 `id`", 't/a.flags:1: error: "`" is not expanded or run here'),
    ("a.flags", "-MMD", 't/a.flags: error: "-MMD" cannot be used'),
    ("a.flags", "'", "t/a.flags:1: error: no closing quotation"),
]


def broken_tests():
    """A file that is wrong is named with its line. Its test has a job that fails, and the others have their own."""
    for name, text, error in BROKEN:
        made_tests("a.c", "b.c", "build/a.elf", "build/b.elf")
        put(f"t/{name}", text)
        out, err = call("mklist", "t", "--check", str(TOP / "rvtest"), status=1)
        expect(f"{name} {text!r}: the error {err!r}", err.startswith(error), True)
        expect(f"{name} {text!r}: the images", [it for it in out.splitlines() if it.startswith("image")],
               ['image = "t/build/a.elf.refused"', 'image = "t/build/b.elf"'])
    for text, code in (("-1", 4294967295), ("-2147483648", 2147483648), ("4294967295", 4294967295), ("0", 0)):
        made_tests("a.c", "build/a.elf")
        put("t/a.exit", text)
        expect(f"exit {text}", f"expect_exit = {code}\n" in call("mklist", "t")[0], True)
    made_tests("a.c", "b.c", "build/a.elf")
    expect("one of two", call("mklist", "t", "--only", "a")[1], "")
    expect("an unknown one", call("mklist", "t", "--only", "aa", status=2)[1], 'mklist: error: no test "aa"\nhelp: did you mean "a"?\n')
    return f"{len(BROKEN)} wrong files"


# ---- words

def option_words():
    """Words are those of a shell, or of GCC in a response file; what a shell would run is refused."""
    for text, words in (("a 'b c' \"d e\" f\\ g", ["a", "b c", "d e", "f g"]), ("'$x' '#' \\$y", ["$x", "#", "$y"]), ("", [])):
        expect(text, words_in(text, "f"), words)
    for text in ("$x", "`x`", '"$x"', "a;b", "a|b", "a>b", "a # b", "*.c", "(a)", "'x"):
        try:
            words_in(text, "f")
        except Refused:
            continue
        raise Wrong(f"{text!r} is not refused")
    expect("a response file's words", response_words("a 'b c' \"d\\\"e\" f\\ g ''"), ["a", "b c", 'd"e', "f g", ""])
    put("outer", "-DA @inner -DB")
    put("inner", "-DC\n@gone")
    expect("nested response files", expanded(["@outer", "x"]), (["-DA", "-DC", "@gone", "-DB", "x"], ["outer", "inner"]))
    put("x.ld")
    put("symbols", "--defsym=a=0 @more")
    put("more", "x.ld")
    expect("files in words", paths_in_words(["-Wl,@symbols", "-Tx.ld", "-DX=inner"]), ["inner", "more", "symbols", "x.ld"])
    found = dict(inputs_of(["-I", "a.c", "b.c", "-x", "c++", "d.h", "-x", "none", "e.o", "f.S", "-T", "g.ld"]))
    expect("inputs", {word: part for word, part in found.items() if part is not None}, {"b.c": "c", "d.h": "c++", "e.o": "", "f.S": "assembler-with-cpp"})
    return "words of options and response files"


def lists_of_files():
    """The lists that GCC, the assembler and the linker write, and the names by which a file was found."""
    text = "x: a.c \\\n a\\ b.h do$$l.h ha\\#h.h co:n.h back\\slash.h b\\\\\\ s.h\nco:n.h:\n"
    expect("GCC's list", files_in_rules(text), ["a.c", "a b.h", "do$l.h", "ha#h.h", "co:n.h", "back\\slash.h", "b\\ s.h"])
    expect("an empty list", files_in_rules("x:\n"), [])
    expect("ld's list", files_in_linked("x y.o: \\\n  a b.o \\\n  c$#.o\n\na b.o:\n"), ["a b.o", "c$#.o"])
    for path, folders, names in (
        ("inc/sub/a.inc", ["", "inc"], {"a.inc", "inc/sub/a.inc", "sub/a.inc"}), ("./inc//a.inc", ["inc/"], {"a.inc"}),
        ("/sdk/x/a.inc", ["", "/sdk"], {"a.inc", "x/a.inc"}), ("../a.inc", ["", ".."], {"a.inc", "../a.inc"}),
    ):
        expect(f"names of {path} in {folders}", names_below(path, folders), names)
    return "lists of files"


# ---- when an image is built again

def build(*words, **variables):
    """Builds t by the stand-in, and gives the steps that were done."""
    options = ["ARCH=-march=rv32imc", "CFLAGS=-Os", "LINK=-T default.ld", "LIBC=none", "ARCH_INCLUDE="]
    compiler = variables.pop("CC", str(CC))
    out, err = call("build", "t", "--to", "t/build", f"CC={compiler}", *options, *words, **variables)
    expect("what build says", err, "")
    return [it.replace(f"{KIT}/", "") for it in out.splitlines()]


def image():
    """The image of the test a."""
    return pathlib.Path("t/build/a.elf").read_text(encoding="utf-8")


def rebuilds():
    """Whatever went into an image and is another now makes it be built again, and nothing else does."""
    put("t/a.c", '#include "a.h"\n#include_if "extra.h"\n')
    put("t/b.c", "b\n")
    put("second/a.h", "two\n")
    put("t/a.flags", "-Ifirst -Isecond shared.c")
    put("t/b.flags", "-Ifirst -Isecond shared.c")
    put("shared.c", "shared\n")
    expect("the first build", sorted(build()), ["CC a", "CC b", "CC shared.c", "CC start.S"])
    expect("nothing changed", build(), [])
    os.utime("second/a.h", (2**31, 2**31))
    os.utime("t/build/a.elf", (2**32, 2**32))
    expect("dates alone changed", build(), [])
    before = os.stat("second/a.h")
    put("second/a.h", "TWO\n")
    os.utime("second/a.h", ns=(before.st_atime_ns, before.st_mtime_ns))
    expect("another text with the date and the size of before", (build(), "TWO" in image()), (["CC a"], True))
    put("first/a.h", "one\n")
    expect("a header that hides it", (build(), "one" in image()), (["CC a"], True))
    put("first/extra.h", "extra\n")
    expect("a header that was looked for in vain", (build(), "extra" in image()), (["CC a"], True))
    put("older/a.h", "old\n")
    os.utime("older/a.h", (0, 0))
    shutil.rmtree("first")
    os.rename("older", "first")
    expect("an older folder", (build(), "old" in image(), "extra" in image()), (["CC a"], True, False))
    put("t/build/a.elf", "other")
    expect("the image was written over", (build(), "old" in image()), (["LD a"], True))
    put("shared.c", "SHARED\n")
    expect("the shared source", sorted(build()), ["CC shared.c", "LD a", "LD b"])
    put("third/z.h")
    put("third/extra.h", "third\n")
    expect("a variable", (build(CPATH="third"), "third" in image()), (["CC a"], True))
    expect("and back", (build(), "third" in image()), (["CC a"], False))
    put("t/a.flags", "-Ifirst -Isecond shared.c -DX")
    expect("flags", sorted(build()), ["CC a", "CC shared.c"])
    expect("one alone", (build("--only", "b"), build()), ([], []))
    return "an image is built again when something that went into it changes"


def compilers():
    """Another compiler, by its place or by its contents, builds everything anew; an image of a test that fails is gone."""
    put("t/a.c", "a\n")
    put("bin/cross", CC.read_bytes())
    put("other/cross", CC.read_bytes())
    for folder in ("bin", "other"):
        os.chmod(f"{folder}/cross", 0o755)
    path = os.environ["PATH"]
    everything = ["CC a", "CC start.S"]
    expect("the first build", sorted(build(CC="cross", PATH=f"bin:{path}")), everything)
    expect("nothing changed", build(CC="cross", PATH=f"bin:{path}"), [])
    expect("a folder without a compiler on PATH", build(CC="cross", PATH=f"t:bin:{path}"), [])
    expect("another compiler", sorted(build(CC="cross", PATH=f"other:{path}")), everything)
    with open("other/cross", "a", encoding="utf-8") as file:
        file.write("# updated\n")
    os.utime("other/cross", (0, 0))
    expect("the compiler is updated", sorted(build(CC="cross", PATH=f"other:{path}")), everything)
    put("t/a.c", '#include "gone.h"\n')
    out, err = call("build", "t", "--to", "t/build", "CC=other/cross", "ARCH=", "CFLAGS=", "LINK=", "LIBC=none", "ARCH_INCLUDE=")
    expect("a test that fails", ("gone.h" in err, os.path.exists("t/build/a.elf")), (True, False))
    out, err = call("build", "t", "--to", "t/build", "CC=no-such-cc", "ARCH=", "CFLAGS=", "LINK=", "LIBC=none", "ARCH_INCLUDE=", status=2)
    expect("no compiler", err.startswith('build: error: compiler "no-such-cc" not found\nhelp: '), True)
    put("bin/clang", '#!/bin/sh\necho "clang version 14.0.6" >&2\n')
    os.chmod("bin/clang", 0o755)
    out, err = call("build", "t", "--to", "t/build", "CC=bin/clang", "ARCH=", "CFLAGS=", "LINK=", "LIBC=none", "ARCH_INCLUDE=", status=2)
    expect("not GCC", err, 'build: error: CC="bin/clang" is not GCC, which this kit needs\n'
           "help: choose a GCC for RISC-V, such as CC=riscv64-unknown-elf-gcc\n")
    return "compilers"


CASES = [ignored_files, control_characters, broken_tests, option_words, lists_of_files, rebuilds, compilers]


def main():
    """Runs each case in a folder of its own."""
    for name in ("CPATH", "CI", "MAKEFLAGS"):
        os.environ.pop(name, None)
    for case in CASES:
        with tempfile.TemporaryDirectory() as folder, contextlib.chdir(folder):
            try:
                print(f"{case.__name__}: {case()}", flush=True)
            except Wrong as wrong:
                print(f"checks/commands/kit_lists.py: {case.__name__}: {wrong}", file=sys.stderr)
                return 1
    return 0


sys.exit(main())
