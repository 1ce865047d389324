"""What the cases of checks/commands/kit_counts.py share."""
import pathlib
import subprocess

TOP = pathlib.Path(__file__).resolve().parents[3]
KIT = TOP / "firmware"
SAMPLES = TOP / "checks/commands/kit_counts.d"
CROSS = "riscv64-unknown-elf-"


class Wrong(Exception):
    """What is not as it should be."""


def expect(what, found, wanted):
    """Whether something is what it should be."""
    if found != wanted:
        raise Wrong(f"{what}: {found!r}, expected {wanted!r}")


def put(name, text):
    """Writes a file of the present folder, and gives its name."""
    pathlib.Path(name).write_bytes(text.encode(errors="surrogateescape"))
    return name


def call(name, *words, status=0):
    """Runs a script of the kit, and gives what it prints on both streams."""
    done = subprocess.run([KIT / name, *words], capture_output=True, encoding="utf-8", check=False)
    expect(f"{name} {' '.join(words)}: status, beside {done.stderr!r}", done.returncode, status)
    return done.stdout, done.stderr
