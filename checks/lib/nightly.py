"""The program of checks/nightly, which runs the checks that need Debian packages, and for some of them root or the toolchain, over the programs that are there.

    checks/nightly [--skip-missing] [--without CHECK]... [CHECK]...
    checks/nightly --list         list the checks, what each needs and has here, and whether it would run
    checks/nightly --install      install the packages, as root, and do nothing else

By default all checks run, one after another. A check that needs the toolchain, root or the right to mount is skipped where that is
missing: not every machine can have them. A check with a missing package fails, because --install would install it; with --skip-missing it
is skipped. The last line is `N passed, N failed, N skipped`, and a line before it names each skipped check. The status is 1 if a check
failed, and 2 for words that are rejected.
"""
import argparse
import dataclasses
import os
import pathlib
import shutil
import subprocess
import sys
import time

TOP = pathlib.Path(__file__).resolve().parents[2]
# What shows that a package is there: a command, or for one without a command a path.
SHOWN_BY = {
    "binutils": "objdump", "chromium": "chromium", "fish": "fish", "zsh": "zsh", "binutils-riscv64-unknown-elf": "riscv64-unknown-elf-as", "debootstrap": "debootstrap", "gcc": "gcc",
    "gcc-riscv64-unknown-elf": "riscv64-unknown-elf-gcc", "gdb-multiarch": "gdb-multiarch", "git": "git", "lcov": "genhtml", "libc6-dev": "/usr/include/stdio.h", "libxml2-utils": "xmllint", "make": "make", "munge": "munged",
    "openssh-client": "ssh", "openssh-server": "sshd", "parallel": "parallel", "picolibc-riscv64-unknown-elf": "/usr/lib/picolibc",
    "python3": "/usr/bin/python3", "python3-junitparser": "/usr/lib/python3/dist-packages/junitparser",
    "python3-yaml": "/usr/lib/python3/dist-packages/yaml", "rsync": "rsync", "shellcheck": "shellcheck", "slurm-wlm": "slurmctld",
    "valgrind": "valgrind",
}
FOLDERS = f"{os.environ.get('PATH', '')}:/usr/sbin:/sbin"
CROSS = ["binutils-riscv64-unknown-elf", "gcc-riscv64-unknown-elf", "picolibc-riscv64-unknown-elf", "make", "python3"]
PACKED = "folder=$(mktemp -d) && trap 'rm -rf \"$folder\"' EXIT && packaging/build \"$folder\" && packaging/check \"$folder\"/*.deb"


@dataclasses.dataclass
class Check:
    """A command, the packages that it needs, and which of NEEDS."""
    command: list
    packages: list
    needs: tuple = ()


CHECKS = {
    "lint": Check(["checks/commands/lint.py"], ["shellcheck"]),
    "ci": Check(["/usr/bin/python3", "checks/commands/ci.py"], ["python3", "python3-yaml"]),
    "assembly": Check(["checks/commands/assembly.py"], ["binutils-riscv64-unknown-elf"]),
    "reports": Check(["checks/commands/reports.sh"], ["python3", "libxml2-utils", "python3-junitparser"]),
    "firmware": Check(["checks/commands/firmware.sh"], CROSS),
    "gdb": Check(["checks/commands/gdb.py"], [*CROSS, "gdb-multiarch"]),
    "kit_counts": Check(["checks/commands/kit_counts.py"], ["binutils-riscv64-unknown-elf", "gcc-riscv64-unknown-elf", "lcov", "make"]),
    "counts": Check(["checks/commands/counts.py"], [*CROSS, "gcc", "libc6-dev", "lcov", "chromium", "valgrind"]),
    "programs": Check(["checks/commands/programs.sh"], ["gcc", "libc6-dev", "binutils"]),
    "shards": Check(["bench/shards", "0"], ["gcc", "libc6-dev", "valgrind"]),
    "differences": Check(["bench/reports"], ["gcc", "libc6-dev"]),
    "completions": Check(["checks/commands/completions.py", "bash", "zsh", "fish"], ["zsh", "fish"]),
    "package": Check(["bash", "-c", PACKED], ["git", "debootstrap"], ("root", "mount")),
    "bare": Check(["checks/commands/bare.sh"], ["git", "debootstrap"], ("root", "mount")),
    "engines": Check(
        ["checks/commands/engines.sh"],
        ["make", "git", "python3-yaml", "parallel", "rsync", "openssh-server", "openssh-client", "slurm-wlm", "munge"], ("root",),
    ),
    "edits": Check(["checks/commands/edits.sh"], ["git"], ("rt",)),
    "growths": Check(["checks/commands/growths.sh"], ["gcc", "libc6-dev"], ("rt",)),
}


def may_mount():
    """Whether this process may mount file systems: has CAP_SYS_ADMIN, which is bit 21."""
    for line in pathlib.Path("/proc/self/status").read_text(encoding="ascii", errors="replace").splitlines():
        name, _, value = line.partition(":")
        if name == "CapEff":
            return int(value, 16) >> 21 & 1 == 1
    return False


# What no package brings: what it is, and whether it is there.
NEEDS = {
    "rt": ("the toolchain, on PATH", lambda: shutil.which("rt") is not None),
    "root": ("run by root", lambda: os.geteuid() == 0),
    "mount": ("the right to mount, which root has outside of containers and in privileged ones", may_mount),
}


def is_there(package):
    """Whether a package is installed, by what shows it."""
    sign = SHOWN_BY[package]
    return os.path.exists(sign) if sign.startswith("/") else shutil.which(sign, path=FOLDERS) is not None


def missing_packages(check):
    """The packages of a check that are not installed."""
    return [package for package in check.packages if not is_there(package)]


def missing_needs(check):
    """What a check needs beside packages, and this machine does not have."""
    return [name for name in check.needs if not NEEDS[name][1]()]


def obstacle(check, skips_packages):
    """What keeps a check from running here: how it counts then, and why; or nothing where it runs."""
    needs, absent = missing_needs(check), missing_packages(check)
    if needs:
        return "skipped", f"needs {', '.join(needs)}"
    if absent:
        return "skipped" if skips_packages else "failed", f"not installed: {', '.join(absent)}"
    return None


def packages():
    """All packages."""
    return sorted({package for check in CHECKS.values() for package in check.packages})


def install():
    """Installs all packages."""
    environment = {**os.environ, "DEBIAN_FRONTEND": "noninteractive"}
    for words in (["update"], ["install", "-y", "--no-install-recommends", *packages()]):
        status = subprocess.run(["apt-get", *words], env=environment, check=False).returncode
        if status != 0:
            return status
    return 0


def passes(name):
    """Runs a check, and says how it ended; of one that failed its last lines stand above that."""
    began = time.monotonic()
    done = subprocess.run(
        CHECKS[name].command, cwd=TOP, stdin=subprocess.DEVNULL, stdout=subprocess.PIPE, stderr=subprocess.STDOUT, check=False
    )
    lines = done.stdout.decode("utf-8", "backslashreplace").splitlines()
    took = f"{time.monotonic() - began:.0f} s"
    if done.returncode == 0:
        print(f"{name}: passed, {took}: {lines[-1] if lines else ''}", flush=True)
    else:
        print(*lines[-30:], f"{name}: FAILED, status {done.returncode}, {took}; again: checks/nightly {name}", sep="\n", flush=True)
    return done.returncode == 0


def words():
    """What the command line says."""
    parser = argparse.ArgumentParser(prog="checks/nightly", description="Run the checks that need Debian packages, root or the toolchain.")
    parser.add_argument("names", nargs="*", metavar="CHECK", help=", ".join(CHECKS))
    parser.add_argument("--without", action="append", default=[], metavar="CHECK", help="leave out this check (repeatable)")
    parser.add_argument("--skip-missing", action="store_true", help="skip a check whose packages are missing, instead of failing it")
    parser.add_argument("--list", action="store_true", help="list the checks, what each needs and has here, and whether it would run")
    parser.add_argument("--install", action="store_true", help="install the packages, and do nothing else")
    asked = parser.parse_args()
    for name in asked.names + asked.without:
        if name not in CHECKS:
            parser.error(f'unknown check "{name}": expected one of {", ".join(CHECKS)}')
    return asked


def marked(names, absent):
    """Names in a row, of which those that are missing say so."""
    return ", ".join(f"{name} (missing)" if name in absent else name for name in names)


def print_list(names, skips_packages):
    """Lists checks: whether each would run here, what it needs, and its packages."""
    width = max(map(len, CHECKS))
    for name in names:
        check = CHECKS[name]
        found = obstacle(check, skips_packages)
        parts = [f"needs: {marked(check.needs, missing_needs(check))}"] if check.needs else []
        parts.append(f"packages: {marked(check.packages, missing_packages(check))}")
        state = {"failed": "fails"}.get(found[0], found[0]) if found else "runs"
        print(f"{name:{width}}  {state:7}  {'; '.join(parts)}")
    print()
    for name, (meaning, is_met) in NEEDS.items():
        print(f"{name}: {meaning}: {'yes' if is_met() else 'no, so the checks that need it are skipped'}")


def run_all(names, skips_packages):
    """Runs checks, and counts how they ended; the status."""
    ended, skipped = {"passed": 0, "failed": 0, "skipped": 0}, []
    for name in names:
        found = obstacle(CHECKS[name], skips_packages)
        if found is None:
            ended["passed" if passes(name) else "failed"] += 1
            continue
        how, why = found
        ended[how] += 1
        print(f"{name}: {how.replace('failed', 'FAILED')}: {why}", flush=True)
        if how == "skipped":
            skipped.append(f"{name} ({why})")
        else:
            print("    help: checks/nightly --install installs the packages; --skip-missing skips such checks", flush=True)
    if skipped:
        print(f"skipped: {', '.join(skipped)}")
    print(", ".join(f"{count} {how}" for how, count in ended.items()))
    return 1 if ended["failed"] else 0


def main():
    asked = words()
    if asked.install:
        return install()
    names = [name for name in asked.names or CHECKS if name not in asked.without]
    if asked.list:
        print_list(names, asked.skip_missing)
        return 0
    return run_all(names, asked.skip_missing)


if __name__ == "__main__":
    sys.exit(main())
