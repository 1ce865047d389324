"""The forms of rows of machines: how programs end in those of every make, and what their accesses of memory and the
console answer, as the report of rvfleet has it; and which regions are maps, as rvtest says.

A number is in hexadecimal digits. A map is `default` or regions that spaces part, `BASE+SIZE`, or `BASE-SIZE` where they are
not writable.
"""
import dataclasses
import re

import images
from rows import Form, lines, lines_in

CHOICES = {"allow": "allow", "refuse": "fault"}


def fleet(row):
    """The row, of which rvfleet is asked in place of rvtest."""
    return dataclasses.replace(row, rvtest=row.rvtest.removesuffix("rvtest") + "rvfleet")


def keys_of_map(text):
    """The key of a map, but for the default one."""
    if text == "default":
        return ""
    tables = []
    for word in text.split():
        base, sign, size = re.fullmatch(r"(\w+)([+-])(\w+)", word).groups()
        tables.append(f"{{base = 0x{base}, size = 0x{size}, write = {'true' if sign == '+' else 'false'}}}")
    return f", region = [{', '.join(tables)}]"


def end_of(text):
    """How a report tells an ending: `exit CODE` and `budget` as they are, and a fault with its address and value."""
    kind, *numbers = text.split(" ")
    if kind in ("exit", "budget"):
        return f"end {text}"
    place, value = (int(number, 16) for number in numbers)
    return f"end fault {kind} pc={place:08x} value={value:08x}"


# ---- maps

def check_map(row):
    """What is told of regions, or `good`."""
    regions, told = row["regions"], row["told"]
    base = int(regions.partition("+")[0] or "0", 16) & -2
    row.write("image.elf", images.elf(base, [(base, images.numbers("0001"))]))
    text = f"job = [{{name = 'a', image = 'image.elf', budget = 1{keys_of_map(regions)}}}]\n"
    row.write("list.toml", text)
    if told == "good":
        row.wants(["check", "list.toml"], 0, "1 job, none refused\n")
    else:
        row.wants(["check", "list.toml"], 2, f'list.toml:1:{text.index("region") + 1}: error: job 1 "a": {told}\n')


# ---- programs

def check_run(row):
    """What the image of a machine comes to: `run BUDGET = ENDING after STEPS`, `exit BUDGET = CODE`, or another
    ending, and `reg NUMBER = VALUE` at the end of the run before."""
    for ask in row.asks:
        isa, misaligned, *regions, entry = ask["machine"].split(" ")
        parts = [part.split(": ") for part in lines_in(ask["image"])]
        row.write("image.elf", images.elf(int(entry, 16), [(int(at, 16), images.numbers(code)) for at, code in parts]))
        keys = f"name = 'a', image = 'image.elf', isa = '{isa}', misaligned = '{CHOICES[misaligned]}'"
        keys += keys_of_map(" ".join(regions))
        for asked, answer in (exchange.split(" = ") for exchange in lines_in(ask["outcome"])):
            verb, number = asked.split(" ")
            if verb == "reg":
                wants_register(row, int(number), answer)
                continue
            row.write("list.toml", f"job = [{{{keys}, budget = {number}}}]\n")
            WANTS[verb](row, answer)


def wants_run(row, answer):
    ending, steps = answer.split(" after ")
    report = lines("job 1 a", end_of(ending), f"steps {steps}", "console -", "signature -", "verdict none", "done 1")
    fleet(row).wants(["run", "list.toml"], 0, report)


def ends(out):
    """The lines of endings."""
    return b"".join(re.findall(rb"^end .*\n", out, re.M))


def wants_exit(row, answer):
    ending = f"exit {int(answer, 16)}" if re.fullmatch("[0-9a-f]{8}", answer) else answer
    fleet(row).wants(["run", "list.toml"], 0, f"{end_of(ending)}\n", shape=ends)


WANTS = {"run": wants_run, "exit": wants_exit}


def wants_register(row, number, value):
    """The value of a register where the job of the list ends."""
    def shape(out):
        return re.findall(rb"^     \w{2,4} +([0-9a-f]{8})$", out, re.M)[number]
    row.wants(["explain", "list.toml", "a", "--last", "0"], 1, value, shape=shape)


# ---- accesses

# Where the code of accesses stands.
CODE = 0x4000_0000
LOADS = {"byte": 4, "half": 5, "word": 2}
STORES = {"byte": 0, "half": 1, "word": 2}
FENCE_I = 0x0000_100f
FAULTS = {"Misaligned": "misaligned", "Access": "access"}


def code_of(ask):
    """The words of an access with its address in x5, the value of a store in x6, that of a load in x10; the access is
    the last but for a store that is done more than once."""
    verb, *words = ask.split(" ")
    if verb == "sync":
        return [FENCE_I]
    width, *numbers = words
    place, *values = (int(number, 16) for number in numbers)
    code = images.loading(5, place)
    if verb == "load":
        return [*code, 5 << 15 | LOADS[width] << 12 | 10 << 7 | 0x03]
    store = 6 << 20 | 5 << 15 | STORES[width] << 12 | 0x23
    code += images.loading(6, values[0])
    if len(values) == 1:
        return [*code, store]
    # x7 counts the rounds: ADDI, and BNE back to the store.
    return [*code, *images.loading(7, values[1]), store, 0xfff38393, 0xfe039ce3]


def jump_to(place):
    return [*images.loading(5, place), 5 << 15 | 0x67]


def write_job(row, name, made, before, code, behind=b""):
    """Makes the image that does this code behind accesses, and gives the keys of its job."""
    misaligned, regions, script = made
    parts, words = [], []
    for ask in lines_in(before):
        if ask.startswith("place "):
            _, at, numbers = ask.split(" ", 2)
            parts.append((int(at, 16), images.numbers(numbers)))
        else:
            words += code_of(ask)
    parts.append((CODE, images.words_of(words + code) + behind))
    row.write(f"{name}.elf", images.elf(CODE, parts))
    script = images.numbers(script).hex()
    keys = f"misaligned = '{CHOICES[misaligned]}', input_hex = '{script}'" + keys_of_map(regions)
    return f"name = '{name}', image = '{name}.elf', budget = 1000000, {keys}", CODE + 4 * len(words + code)


def made_of(cells, front):
    """What a bus is made of, by the columns with this front."""
    return cells[f"{front}misaligned"], cells[f"{front}map"], cells.get(f"{front}script", "")


def check_access(row):
    """What a bus answers that is made of a choice, a map and a script, behind what is done before; where the columns of an
    earlier job are there, the same worker ran it before."""
    for cells in row.asks:
        made, before, (verb, _, rest) = made_of(cells, ""), cells.get("before", ""), cells["ask"].partition(" ")
        jobs = []
        if "earlier_map" in cells:
            earlier = made_of(cells, "earlier_"), cells["earlier_before"]
            jobs.append(write_job(row, "earlier", *earlier, images.loading(10, 0), images.EXIT)[0])
        more, told, shape = ASKS[verb](row, made, before, rest, cells["answer"])
        row.write("list.toml", "job = [" + ", ".join("{" + keys + "}" for keys in jobs + more) + "]\n")
        behind = b"job 2 " if jobs else b""
        fleet(row).wants(
            ["run", "list.toml", "--workers", "1"], 0, told, shape=lambda out, b=behind, s=shape: s(out[out.index(b):])
        )


def ask_access(verb):
    """Does a load or a store, and exits by what was loaded, or by 0."""
    def ask(row, made, before, rest, answer):
        code = code_of(f"{verb} {rest}")
        behind = [] if verb == "load" else images.loading(10, 0)
        keys, end = write_job(row, "a", made, before, code + behind, images.EXIT)
        place, words = end - 4 * len(behind) - 4, rest.split(" ")
        if answer in FAULTS:
            told = end_of(f"{verb}-{FAULTS[answer]} {place:x} {words[1]}")
        elif answer == "ConsoleFull":
            told = end_of(f"console-full {place:x} {words[2]}")
        else:
            told = f"end exit {0 if answer == 'done' else int(answer, 16)}"
        return [keys], f"{told}\n", ends
    return ask


def ask_fetch(row, made, before, rest, answer):
    """Jumps to an address, where the run ends: by a kind of fault, and its value."""
    kind, value = answer.split(" ")
    keys, _ = write_job(row, "a", made, before, jump_to(int(rest, 16)))
    return [keys], end_of(f"{kind} {rest} {value}") + "\n", ends


def ask_stale(row, made, before, rest, answer):
    """Of the four halfwords from an address on: `x` for each that was stored and cannot be fetched, else `-`."""
    places = [int(rest, 16) + 2 * half for half in range(4)]
    jobs = [write_job(row, f"at-{place:x}", made, before, jump_to(place))[0] for place in places]

    def marks(out):
        stale = [end_of(f"stale-code {place:x} {place:x}").encode() for place in places]
        pairs = zip(ends(out).splitlines(), stale, strict=True)
        return b"".join(b"x" if end == wanted else b"-" for end, wanted in pairs)
    return jobs, answer, marks


def ask_console(row, made, before, _rest, answer):
    """How many bytes the console has, and the last one."""
    def shape(out):
        digits = re.search(rb"^console (.*)$", out, re.M)[1].decode().strip("-")
        return f"{len(digits) // 2} to {digits[-2:]}".removesuffix(" to ").encode()
    keys, _ = write_job(row, "a", made, before, [], images.EXIT)
    return [keys], answer, shape


def ask_words(row, made, before, rest, answer):
    """The words of a signature: how many there are, and each of them."""
    keys, _ = write_job(row, "a", made, before, [], images.EXIT)
    path = row.folder / "a.elf"
    row.write("a.elf", images.with_symbols(path.read_bytes(), [
        (name, int(place, 16), 0x10, 0xfff1) for name, place in zip((b"x", b"y"), rest.split(" "), strict=True)
    ]))

    def shape(out):
        return b" ".join(re.search(rb"^signature ([\w\n]*)\nverdict ", out, re.M)[1].split())
    return [f"{keys}, signature = ['x', 'y']"], answer, shape


def ask_in(row, made, _before, rest, answer):
    """Whether so many bytes from an address on lie in one region: whether a segment with no more is loaded there."""
    place, size = (int(number, 16) for number in rest.split(" "))
    keys, _ = write_job(row, "a", made, "", [])
    data = images.elf(place & -2, [(place, b"")])
    row.write("a.elf", data[:72] + images.words_of([size]) + data[76:])

    def shape(out):
        return b"no" if ends(out) == b"end refused segment-map\n" else b"yes" if b"end fault " in out else out
    return [keys], answer, shape


ASKS = {
    "load": ask_access("load"),
    "store": ask_access("store"),
    "fetch": ask_fetch,
    "stale": ask_stale,
    "console": ask_console,
    "words": ask_words,
    "in": ask_in,
}

BUS = "misaligned map script before"
FORMS = {
    "machines": Form(check_run, "machine image outcome"),
    "accesses": Form(check_access, f"{BUS} ask answer earlier_{BUS.replace(' ', ' earlier_')}"),
    "maps": Form(check_map, "regions told"),
}
