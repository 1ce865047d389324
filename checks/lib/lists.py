"""The forms of rows of lists and of images: which lists are good and what is wrong with the others, which images are run and what
is loaded of them, as the report of rvfleet has it; and where their symbols stand, as rvtest tells it.

A map is `default` or regions, as of machines.
"""
import re

import images
from machines import fleet, keys_of_map
from rows import Form, lines


# ---- lists

def check_list(row):
    """Which job of a list is wrong in what, or the last line of its report."""
    text, told = row["list"], row["told"]
    row.write("list.toml", text)
    if told.startswith("done "):
        # No image is there, so that a job which expects something fails.
        status = int("expect_" in text or "same_as" in text)
        fleet(row).wants(["run", "list.toml"], status, lines(told), shape=last_of)
    else:
        fleet(row).wants(["run", "list.toml"], 2, "", lines(f"rvfleet: {told}"))


def last_of(out):
    return out[out.rfind(b"\n", 0, -1) + 1:]


# ---- images

def bytes_of(text):
    """The file of an image by its words, behind which ` to 99` makes it 99 bytes long by zeros. Of `64 words` each is a
    segment of its own, the first at BASE and 0."""
    count = re.fullmatch("([0-9]+) words", text)
    if count:
        return images.elf(images.BASE, [(images.BASE + 4 * word, images.words_of([word])) for word in range(int(count[1]))])
    words, _, size = text.partition(" to ")
    return images.image(words).ljust(int(size or 0), b"\0")


def write_job(row, image, keys):
    """Makes an image and the list of its job with these keys."""
    row.write("image.elf", image)
    row.write("list.toml", f"job = [{{name = 'a', image = 'image.elf', budget = 9{keys}}}]\n")


def keys_of(regions, keys):
    return keys_of_map(regions) + (keys and f", {keys}")


def check_image(row):
    """What an image is refused for beside a map and other keys of its job, or `good` where it is run."""
    write_job(row, bytes_of(row["image"]), keys_of(row["map"], row["keys"]))
    fleet(row).wants(["run", "list.toml"], 0, row["answer"], shape=refusal)


def refusal(out):
    end = re.search(rb"^end (?:refused (.*)|.*)$", out, re.M)
    return (end[1] or b"good") if end else out


def check_loaded(row):
    """`ADDRESS=WORD` of what memory has there of an image, beside a map and other keys of its job, or `ADDRESS=FIRST..LAST` of
    words that go up by one, where nothing is put to the console."""
    place, words = row["memory"].split("=")
    first, _, last = words.partition("..")
    words = range(int(first, 16), int(last or first, 16) + 1)
    begin = int(place, 16)
    ends = [(b"x", begin, 0x10, 0xfff1), (b"y", begin + 4 * len(words), 0x10, 0xfff1)]
    keys = ", ".join(["signature = ['x', 'y']", *filter(None, [row["keys"]])])
    write_job(row, images.with_symbols(bytes_of(row["image"]), ends), keys_of(row["map"], keys))
    told = lines("console -", f"signature {len(words)}", *(f"{word:08x}" for word in words))
    fleet(row).wants(["run", "list.toml"], 0, told, shape=memory)


def memory(out):
    """The console and the signature of a report."""
    found = re.search(rb"^console .*\nsignature [\w\n]*?(?=^verdict )", out, re.M)
    return found[0] if found else out


# ---- symbols

def check_symbol(row):
    """The values of the two symbols of a signature, which is none, or what the image is refused for."""
    begin, end = row["names"].split(" ")
    write_job(row, bytes_of(row["image"]), f", signature = ['{begin}', '{end}']")
    row.wants(["check", "list.toml"], 2, row["values"], shape=values)


def values(out):
    """The values of the symbols, where they are told, or what is told in place of them."""
    front = rb'list\.toml:1: error: job 1 "a": refused '
    told = re.match(front + rb"signature-range: the signature from \S+ at (\w+) to \S+ at (\w+) is invalid: ", out)
    other = re.match(front + rb"(\S+): ", out)
    return b" ".join(told.groups()) if told else other[1] if other else out


# Memory where images stand, and at the end of the address space.
MAP = "80000000+100000 fffffff0+10"


def check_place(row):
    """The symbol that an address belongs to, where the image has no instruction."""
    address = row["address"]
    write_job(row, images.changed(bytes_of(row["image"]), f"24={address}"), keys_of(MAP, ""))
    row.wants(["run", "list.toml"], 1, f"{address} {row['symbol']}", shape=place)


def place(out):
    """Where a run ended, and the symbol."""
    found = re.match(rb"FAIL a: fault (?:illegal|fetch-access) at (\w+)(?: \((.*)\))?, value ", out)
    return b"%s %s" % (found[1], found[2] or b"none") if found else out


def check_value(row):
    """The symbol that a value points to, of the symbols of an image, of which some bytes are changed."""
    value = row["value"]
    code = images.words_of([*images.loading(5, int(value, 16)), 0])
    image = images.with_symbols(images.program(code), map(images.symbol, row["symbols"].split()))
    write_job(row, images.changed(image, row["changes"]), "")
    row.wants(["explain", "list.toml", "a", "--last", "0"], 1, f"{value} {row['symbol']}", shape=register)


def register(out):
    """What stands in the register that the image gives a value."""
    found = re.search(rb"^     t0 +(\w+)(?:  (\S+))?$", out, re.M)
    return b"%s %s" % (found[1], found[2] or b"none") if found else out


FORMS = {
    "images": Form(check_image, "image map keys answer"),
    "lists": Form(check_list, "list told"),
    "loaded": Form(check_loaded, "image map keys memory"),
    "places": Form(check_place, "image address symbol"),
    "pointers": Form(check_value, "symbols changes value symbol"),
    "symbols": Form(check_symbol, "image names values"),
}
