#!/usr/bin/env python3
"""checks/commands/ci.py: whether checks/nightly skips, fails and counts as it says; and whether the pipelines of GitHub and GitLab are YAML, run
checks/run on each push and checks/nightly each night, the whole of both, and name the packages that checks/nightly needs. Without a reader
of YAML this case is skipped.
"""
import contextlib
import io
import os
import pathlib
import shutil
import subprocess
import sys
import tempfile
import unittest.mock

TOP = pathlib.Path(__file__).resolve().parents[2]
GITHUB, GITLAB = TOP / ".github/workflows/checks.yml", TOP / ".gitlab-ci.yml"
sys.dont_write_bytecode = True
sys.path.insert(0, str(TOP / "checks/lib"))
import nightly  # noqa: E402


# ---- checks/nightly

# Checks that stand for those of checks/nightly, and what they need: `here` is there, and `gone` is not.
COMMANDS = {
    "good": (["true"], ["here"], ()), "bad": (["false"], ["here"], ("key",)), "poor": (["true"], ["here", "gone"], ()),
    "far": (["true"], ["here"], ("key", "lock")), "both": (["true"], ["gone"], ("lock",)),
}
# The words of a call, its status, the last line, and of the lines before it those that must be among them.
CALLS = [
    ("good", 0, "1 passed, 0 failed, 0 skipped", []),
    ("bad", 1, "0 passed, 1 failed, 0 skipped", []),
    ("good far", 0, "1 passed, 0 failed, 1 skipped", ["far: skipped: needs lock", "skipped: far (needs lock)"]),
    ("both far", 0, "0 passed, 0 failed, 2 skipped", ["skipped: both (needs lock), far (needs lock)"]),
    ("poor", 1, "0 passed, 1 failed, 0 skipped", ["poor: FAILED: not installed: gone"]),
    ("--skip-missing good poor", 0, "1 passed, 0 failed, 1 skipped", ["skipped: poor (not installed: gone)"]),
    ("--without bad --without poor", 0, "1 passed, 0 failed, 2 skipped", ["skipped: far (needs lock), both (needs lock)"]),
    ("", 1, "1 passed, 2 failed, 2 skipped", ["skipped: far (needs lock), both (needs lock)"]),
    ("--list", 0, "lock: a lock: no, so the checks that need it are skipped", [
        "good  runs     packages: here", "bad   runs     needs: key; packages: here", "poor  fails    packages: here, gone (missing)",
        "far   skipped  needs: key, lock (missing); packages: here", "both  skipped  needs: lock (missing); packages: gone (missing)",
        "key: a key: yes",
    ]),
    ("--list --skip-missing poor", 0, "lock: a lock: no, so the checks that need it are skipped", ["poor  skipped  packages: here, gone (missing)"]),
]


def call_nightly(words):
    """The status and the lines of a call."""
    out, sys.argv = io.StringIO(), ["checks/nightly", *words]
    with contextlib.redirect_stdout(out):
        status = nightly.main()
    return status, out.getvalue().splitlines()


def check_calls():
    """Calls checks/nightly with checks of another kind in place of its own, and says what is wrong."""
    others = {
        "CHECKS": {name: nightly.Check(*of) for name, of in COMMANDS.items()},
        "NEEDS": {"key": ("a key", lambda: True), "lock": ("a lock", lambda: False)},
        "SHOWN_BY": {"here": "/", "gone": "/none/gone"},
    }
    for words, status, last, among in CALLS:
        with unittest.mock.patch.multiple(nightly, **others):
            found, lines = call_nightly(words.split())
        absent = [line for line in among if line not in lines[:-1]]
        skips = [line for line in lines if line.startswith("skipped: ")]
        if (found, lines[-1:]) != (status, [last]) or absent or (bool(skips) != (", 0 skipped" not in last) and "--list" not in words):
            yield f"checks/nightly {words}: status {found}, expected {status}; {absent or last} expected in {lines}"
        else:
            print(f"checks/nightly {words}: status {status}, {last}")


def check_without_toolchain():
    """Starts the checks that need the toolchain where it is missing, and says what is wrong."""
    with tempfile.TemporaryDirectory() as folder:
        for name, path in {"bash": shutil.which("bash"), "dirname": shutil.which("dirname"), "python3": sys.executable}.items():
            os.symlink(path, f"{folder}/{name}")
        words = [TOP / "checks/nightly", "edits", "growths"]
        done = subprocess.run(words, env={**os.environ, "PATH": folder}, capture_output=True, text=True, check=False)
    last = ["skipped: edits (needs rt), growths (needs rt)", "0 passed, 0 failed, 2 skipped"]
    if done.returncode != 0 or done.stdout.splitlines()[-2:] != last:
        yield f"checks/nightly edits growths, without rt: status {done.returncode}: {done.stdout}{done.stderr}"
    else:
        print(f"checks/nightly edits growths, without rt: status 0, {last[1]}")


# ---- the pipelines

def github_jobs(read):
    """Of each job its commands, its packages and when it runs. A key `on` is read as true."""
    pipeline = read(GITHUB)
    if not {"push", "schedule"} <= set(pipeline[True]):
        raise ValueError("it does not run on each push and by a schedule")
    for name, job in pipeline["jobs"].items():
        yield name, [step["run"] for step in job["steps"] if "run" in step], job["env"]["PACKAGES"].split(), job["if"]


def gitlab_jobs(read):
    """The same of GitLab's jobs."""
    for name, job in read(GITLAB).items():
        if name != "default":
            yield name, job["script"], job["variables"]["PACKAGES"].split(), job["rules"][0]["if"]


def problems_of(jobs, wanted):
    """What is wrong with the jobs of a pipeline."""
    found = {}
    for name, commands, packages, when in jobs:
        found[name] = packages
        if commands[-1] != f"checks/{name}" or not (TOP / commands[-1]).is_file():
            yield f"its job {name} ends with {commands[-1]}, expected checks/{name}, which runs all of it"
        if not any("$PACKAGES" in command for command in commands):
            yield f"its job {name} installs no packages"
        if ("schedule" in when) is False:
            yield f"its job {name} does not say when it runs"
    if found.keys() != {"run", "nightly"}:
        yield f"its jobs are {', '.join(found)}, and not run and nightly"
    elif found["nightly"] != wanted:
        yield f"nightly installs {' '.join(found['nightly'])}, and checks/nightly needs {' '.join(wanted)}"


def check_pipelines():
    """Reads both pipelines, and says what is wrong with them."""
    try:
        import yaml
    except ImportError:
        print("skipped: python3-yaml is not installed, so the pipelines are not checked")
        return
    packages, found = nightly.packages(), []
    for path, jobs in ((GITHUB, github_jobs), (GITLAB, gitlab_jobs)):
        try:
            found += [f"{path.relative_to(TOP)}: {one}" for one in problems_of(jobs(lambda file: yaml.safe_load(file.read_text())), packages)]
        except (OSError, yaml.YAMLError, ValueError, KeyError, TypeError, AttributeError) as error:
            found.append(f"{path.relative_to(TOP)}: {type(error).__name__}: {error}")
    yield from found
    if not found:
        print("checks/commands/ci.py: two pipelines, which run checks/run and checks/nightly")


def main():
    problems = [*check_calls(), *check_without_toolchain(), *check_pipelines()]
    if problems:
        sys.exit("\n".join(f"checks/commands/ci.py: {problem}" for problem in problems))


main()
