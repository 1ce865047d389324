#!/usr/bin/env python3
"""checks/commands/samples.py: whether the images that the crate `samples` holds as digits are byte for byte the files of checks/images and examples."""
import pathlib
import re
import sys

TOP = pathlib.Path(__file__).resolve().parents[2]
sys.path.insert(0, str(TOP / "checks/lib"))
import images  # noqa: E402

SOURCE = TOP / "crates/samples/src/images.rt"
NAMES = {
    "one": "ONE_SEGMENT", "two": "TWO_SEGMENTS", "sign": "SIGNATURE",
    "checksum": "CHECKSUM", "upper": "UPPER", "stripped": "UPPER_STRIPPED",
}


def held():
    """The images of the crate: arrays of bytes, and texts of hexadecimal digits."""
    text = SOURCE.read_text(encoding="ascii")
    arrays = re.findall(r"pub(?:\(crate\))? const (\w+): \[u8; \d+\] = \[(.*?)\];", text, re.S)
    digits = re.findall(r'pub(?:\(crate\))? const (\w+): &str = "\\\n(.*?)";', text, re.S)
    found = {name: "".join(re.findall("0x(..)", array)) for name, array in arrays}
    found.update((name, re.sub(r"[\\\s]", "", text)) for name, text in digits)
    return {name: bytes.fromhex(digits) for name, digits in found.items()}


def main():
    found = held()
    wrong = [f"{NAMES[word]} is not {images.FILES[word].name}" for word in NAMES if found.get(NAMES[word]) != images.IMAGES[word]]
    if wrong:
        sys.exit("\n".join(f"checks/commands/samples.py: {one}" for one in wrong))
    print(f"checks/commands/samples.py: {len(NAMES)} images, each a file of checks/images or examples")


main()
