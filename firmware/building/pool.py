"""Runs the steps of all tests in parallel, as many at a time as make's -j allows, and reports each step without interleaving."""
import concurrent.futures
import os
import re
import sys
import threading

from listing.files import Refused, shown, text_of_error

from .steps import Failed, compile_step, link_step


def jobs_of_make():
    """The maximum number of compilers that run in parallel: that of make's -j, or else the number of processors."""
    found = re.search(r"(?:^|\s)-j ?(\d+)", os.environ.get("MAKEFLAGS", "").partition(" -- ")[0])
    return max(1, int(found[1])) if found else len(os.sched_getaffinity(0))


class Report:
    """Prints a line for each step, or its whole command if `verbose`, and the compiler's messages."""

    def __init__(self, verbose):
        self.verbose, self.lock, self.told = verbose, threading.Lock(), set()

    def step(self, label, command, said):
        """Reports a step."""
        with self.lock:
            if self.verbose:
                print(shown(command), flush=True)
            elif label:
                print(label, flush=True)
            if said.strip():
                sys.stderr.write(said)
                sys.stderr.flush()

    def error(self, text):
        """Reports an error, only once if several tests share it."""
        with self.lock:
            if text and text not in self.told:
                self.told.add(text)
                print(f"build: {text}" if text.startswith("error: ") else text, file=sys.stderr, flush=True)


class Pool:
    """Runs the steps of a build. Sources that several tests share are compiled once."""

    def __init__(self, tools, jobs):
        self.tools, self.objects, self.built = tools, {}, set()
        self.executor = concurrent.futures.ThreadPoolExecutor(jobs)

    def build(self, plans):
        """Builds each test. If one fails, it has no image, and the others are still built. Returns whether all were built."""
        plans = list(plans)
        for source in dict.fromkeys(it for plan in plans for it in plan.sources):
            self.objects[source] = self.executor.submit(compile_step, self.tools, source)
        # Links are submitted after all sources, so that few of them block a thread while they wait for an object.
        futures = [self.executor.submit(self.link, plan) for plan in plans]
        try:
            return all([it.result() for it in futures])
        except BaseException:
            self.executor.shutdown(cancel_futures=True)
            raise

    def link(self, plan):
        """Links a test after waiting for its objects. Their steps were submitted earlier, so they are running or finished."""
        try:
            objects = {source: self.objects[source].result() for source in plan.sources}
            self.built.update(path for path, _ in objects.values())
            words = [word if isinstance(word, str) else objects[word][0] for word in plan.words]
            label = None if objects[plan.sources[0]][1] else f"LD {plan.name}"
            link_step(self.tools, words, plan.image, plan.place, label)
            return True
        except (Failed, Refused, OSError) as error:
            if os.path.lexists(plan.image):
                os.remove(plan.image)
            self.tools.report.error(text_of_error(error) if isinstance(error, OSError) else str(error))
            return False
