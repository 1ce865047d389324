"""What `checks/run` adds to unittest: commands of checks/commands as test cases, a suite whose cases run in parallel, and its result."""
import concurrent.futures
import os
import pathlib
import subprocess
import time
import unittest

from outcomes import printable

TOP = pathlib.Path(__file__).resolve().parents[2]
# A line of a command that begins with this is a skipped case, and the rest of the line is the reason.
SKIPPED = "skipped: "
# How many failures are reported in full.
MOST_REPORTED = 20


class Command(unittest.TestCase):
    """A command of checks/commands as a test case, which fails if the status is not 0. Each line that the command prints is a subtest."""

    def __init__(self, name, words):
        super().__init__()
        self.name, self.words, self.seconds = name, words.split(), 0

    def id(self):
        return self.name

    def __str__(self):
        return f"checks/commands/{self.words[0]}"

    def shortDescription(self):
        return f"{self.seconds:.0f} s"

    def runTest(self):
        began = time.monotonic()
        done = subprocess.run([TOP / str(self), *self.words[1:]], cwd=TOP, stdin=subprocess.DEVNULL, capture_output=True, check=False)
        self.seconds = time.monotonic() - began
        lines, errors = (data.decode("utf-8", "backslashreplace").splitlines() for data in (done.stdout, done.stderr))
        if done.returncode != 0:
            self.fail("\n".join([*lines[-5:], *errors[-60:], f"status {done.returncode}"]))
        for line in lines:
            with self.subTest(line):
                if line.startswith(SKIPPED):
                    self.skipTest(line.removeprefix(SKIPPED))


class Result(unittest.TestResult):
    """The result of one case or of several. It also counts what passed and failed; a case with subtests counts as these."""

    def __init__(self):
        super().__init__()
        self.passed = self.failed = 0

    def addSuccess(self, test):
        self.passed = self.passed or 1

    def addSubTest(self, test, subtest, err):
        super().addSubTest(test, subtest, err)
        self.passed += err is None

    def addFailure(self, test, err):
        """Keeps the message of a failure without a traceback."""
        self.failures.append((test, str(err[1])))

    def add(self, case, result):
        """Adds the result of a case, and reports a failure or the end of a command."""
        self.testsRun += result.testsRun
        self.passed += result.passed
        self.failed += not result.wasSuccessful()
        self.skipped += [(case, reason) for _, reason in result.skipped]
        problems = [text for _, text in result.failures + result.errors]
        if problems and self.failed <= MOST_REPORTED:
            print(f"{case}: {case.id()} failed: {case.shortDescription()}")
            print(*(f"  {printable(line)}" for text in problems for line in text.splitlines()), sep="\n")
            print(f"  again: checks/run {case.id()}", flush=True)
        elif problems and self.failed == MOST_REPORTED + 1:
            print("more failures are not shown", flush=True)
        elif isinstance(case, Command) and not problems:
            print(f"{case.id()}: {result.passed} cases, {case.shortDescription()}", flush=True)

    def __str__(self):
        reasons = "".join(f"skipped: {case.id()}: {reason}\n" for case, reason in self.skipped)
        return f"{reasons}{self.passed} passed, {self.failed} failed" + (f", {len(self.skipped)} skipped" if self.skipped else "")


class ParallelSuite(unittest.TestSuite):
    """A suite whose cases run in parallel. Each has a result of its own, so that threads share none. Results are added as cases end."""

    def run(self, result, debug=False):
        pool = concurrent.futures.ThreadPoolExecutor(len(os.sched_getaffinity(0)))
        try:
            running = {pool.submit(case.run, Result()): case for case in self}
            for ended in concurrent.futures.as_completed(running):
                result.add(running[ended], ended.result())
        finally:
            pool.shutdown(cancel_futures=True)
        return result
