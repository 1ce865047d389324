"""The cases of make cover and make profile."""
import pathlib
import subprocess

from shared import KIT, SAMPLES, expect, put

PAGES = pathlib.Path("t/build/cover/html/index.html")


def made(target, last, status, *words):
    """What make prints of a target, over an rvtest that only seems one, which ends with a status, and whether the last line is there."""
    put("status", str(status))
    call = ["make", "--no-print-directory", "-f", KIT / "Makefile", target, "TESTS=t", "LIBC=none", f"RVTEST={SAMPLES / 'rvtest'}", *words]
    done = subprocess.run(call, capture_output=True, encoding="utf-8", check=False)
    shows = f"{last}\n" in done.stdout
    expect(f"make {target} {words}: status, beside {done.stderr!r}", done.returncode, 0 if shows and status == 0 else 2)
    return done.stdout, done.stderr, shows


def clean():
    """Removes what was built."""
    subprocess.run(["make", "-f", KIT / "Makefile", "clean", "TESTS=t"], check=True, stdout=subprocess.DEVNULL)


def covered(status, *words):
    return made("cover", f"HTML {PAGES}", status, *words)


def sources():
    """The lines of lcov's text that name a source, or count a line of one."""
    text = pathlib.Path("t/build/cover/cover.info").read_text(encoding="utf-8")
    return [line for line in text.splitlines() if line[:3] in ("SF:", "DA:")]


def targets():
    """make cover: what it calls, and what it leaves; the same of tests that failed, and nothing where rvtest refuses or counts nothing."""
    pathlib.Path("t").mkdir()
    put("t/a.c", "int main(void)\n{\n    return 0;\n}\n")
    for status in (2, 1, 0):
        out, _, shows = covered(status)
        expect("what cover calls", "rvtest run t/build/cover/t.toml --counts t/build/cover/counts\n" in out, True)
        expect("whether cover shows pages", shows, status < 2)
        expect("whether they are there", PAGES.exists(), status < 2)
    # All three lines have the first address of main: its li is of line 4, and 2 and 3 begin there.
    counted = [f"SF:{pathlib.Path('t/a.c').resolve()}", "DA:2,1", "DA:3,1", "DA:4,1"]
    expect("the sources", sources(), counted)
    for version in (2, 3, 4):
        expect(f"whether DWARF {version} has pages", covered(0, f"CFLAGS=-Og -gdwarf-{version}")[2], True)
        expect(f"the sources by DWARF {version}", sources(), counted)
    covered(0)
    for word, said in (("--stack", "rvtest: error: unrecognized arguments: --stack"), ("--failed r", "counts2lcov: t/build/cover/counts: No such file or directory")):
        _, err, shows = covered(0, f"RUN={word}")
        expect(f"whether {word} is refused, by {err!r}", (shows, said in err), (False, True))
    clean()
    expect("what is left", [it.name for it in pathlib.Path("t").iterdir()], ["a.c"])
    expect("whether images are built by -Og", " -Og -g " in covered(0, "V=1")[0], True)
    clean()
    return "make cover, over a stand-in of rvtest"


def profile():
    """make profile: what it calls, and what it shows; the same of tests that failed, and nothing where rvtest refuses."""
    pathlib.Path("t").mkdir()
    put("t/a.c", "int main(void)\n{\n    return 0;\n}\n")
    for status in (2, 1, 0):
        out, _, shows = made("profile", "CALLGRIND t/build/callgrind.out", status)
        expect("what profile calls", "rvtest run t/build/t.toml --counts t/build/counts --stacks\n" in out, True)
        expect("whether profile shows its end", shows, status < 2)
        expect("whether it shows main", "           1 100.00%            1 100.00%          1  main\n" in out, status < 2)
    text = pathlib.Path("t/build/callgrind.out").read_text(encoding="utf-8")
    expect("the functions of callgrind's text", [line for line in text.splitlines() if line[:3] == "fn="], ["fn=main"])
    return "make profile, over a stand-in of rvtest"
