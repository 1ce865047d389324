"""The jobs of tests: which keys each has, of the files beside it."""
import os

from .files import WORD, Refused, bytes_of, content_of, number_of, shown, text_of, word_of
from .flags import flags_of
from .found import DEFAULTS, NAME, cases_of, not_a_name
from .keys import keys_in, put

ENDS = """budget fetch-access stale-code illegal breakpoint load-misaligned load-access store-misaligned store-access
console-full unknown-call fetch-misaligned""".split()
SCRIPT_ROOM = CONSOLE_ROOM = 65_536
BUDGET, MOST_STEPS = 10_000_000, 1_000_000_000
ORDER = """budget input input_hex expect_exit expect_end expect_console expect_console_file signature
expect_signature""".split()
SIGNATURE = 'signature = ["begin_signature", "end_signature"]'
# The map of default.ld: code that no store changes, and, apart from it, the stack with the data behind it.
REGION = """region = [
    { base = 0x8000_0000, size = 0x7_0000, write = false },
    { base = 0x8008_0000, size = 0x8_0000 },
]"""


def jobs_of(test, top, image, region, ignored):
    """The jobs of a test, each a name and its lines: one, or one for each of its cases."""
    flags_of(f"{test.stem}.flags")
    cases = cases_of(test, ignored)
    keys = {"budget": f"budget = {BUDGET}", "expect_exit": "expect_exit = 0", "region": region}
    for folder in folders_down_to(test, top):
        put(keys, keys_in(os.path.join(folder, f"{DEFAULTS}.keys")))
    put_all(keys, test.stem)
    if cases is None:
        yield test.name, lines_of_job(test.name, image, keys)
    for case in cases or []:
        name, own = f"{test.name}.{case}", dict(keys)
        stem = os.path.join(f"{test.stem}.cases", case)
        if not NAME.fullmatch(name):
            raise Refused(not_a_name(name, stem))
        put_all(own, stem)
        yield name, lines_of_job(name, image, own)


def folders_down_to(test, top):
    """The folders whose defaults apply to a test, the farthest first."""
    parts = os.path.dirname(test.place).split(os.sep)
    return folders_above(top) + [os.path.join(top, *parts[:count]) for count in range(len(parts) + 1) if count == 0 or parts[0]]


def folders_above(top):
    """The folders above the tests, however their path is spelt, from the current directory on; none if they are outside of it."""
    parts = os.path.relpath(os.path.realpath(top)).split(os.sep)
    return [os.path.join("", *parts[:count]) for count in range(len(parts))] if parts[0] not in (os.curdir, os.pardir) else []


def put_all(keys, stem):
    """Replaces keys of all tests by the files beside a test or a case; a file of its own wins over a line of its keys."""
    put(keys, keys_in(f"{stem}.keys"))
    budget = number_of(f"{stem}.budget", 1, MOST_STEPS)
    if budget is not None:
        put(keys, {"budget": f"budget = {budget}"})
    script = bytes_of(f"{stem}.in", SCRIPT_ROOM)
    if script is not None:
        put(keys, {"input_hex": f'input_hex = "{script.hex()}"'})
    put(keys, ending_of(stem))
    if bytes_of(f"{stem}.out", CONSOLE_ROOM) is not None:
        put(keys, {"expect_console_file": f"expect_console_file = {text_of(f'{stem}.out')}"})
    if content_of(f"{stem}.signature") is not None:
        keys.setdefault("signature", SIGNATURE)
        put(keys, {"expect_signature": f"expect_signature = {text_of(f'{stem}.signature')}"})


def ending_of(stem):
    """How the job must end, where a file says it. An exit code may be written as a signed number, as a C program returns it."""
    end = word_of(f"{stem}.end")
    code = number_of(f"{stem}.exit", -WORD // 2, WORD - 1)
    if end is None:
        return {} if code is None else {"expect_exit": f"expect_exit = {code % WORD}"}
    if code is not None:
        raise Refused(f"{shown(stem)}.end: error: cannot be used with {shown(stem)}.exit: a run ends in one way")
    if end not in ENDS:
        raise Refused(f'{shown(stem)}.end:1: error: unknown end "{shown(end)}": expected {", ".join(ENDS[:-1])} or {ENDS[-1]}')
    return {"expect_end": f"expect_end = {text_of(end)}"}


def lines_of_job(name, image, keys):
    """The lines of a job: what each job has in a fixed order, and then what files of keys add."""
    yield "[[job]]"
    yield f"name = {text_of(name)}"
    yield f"image = {text_of(image)}"
    yield from (keys[key] for key in ORDER if key in keys)
    yield from (text for key, text in keys.items() if key not in ORDER)


def refused_job(name, image, why):
    """The lines of a job that fails, for a test whose files are wrong: there is no image of this path."""
    for line in why.splitlines():
        yield f"# {line}"
    yield from ("[[job]]", f"name = {text_of(name)}", f"image = {text_of(f'{image}.refused')}", f"budget = {BUDGET}")


def arch_job(image, name, references):
    """The lines of the job of one architecture test."""
    reference = os.path.join(references, f"{name}.reference_output")
    if not NAME.fullmatch(name):
        raise Refused(not_a_name(name, image))
    if content_of(reference) is None:
        raise Refused(f"{shown(reference)}: error: missing reference signature of {shown(image)}")
    keys = {"budget": f"budget = {BUDGET}", "expect_exit": "expect_exit = 0", "signature": SIGNATURE}
    keys["expect_signature"] = f"expect_signature = {text_of(reference)}"
    return lines_of_job(name, image, keys)
