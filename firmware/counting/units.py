"""The folders in which the units of DWARF 2 to 4 were compiled: their tables of lines do not say it, as those of DWARF 5 do."""
from .sections import Bytes

COMPILED_IN, LINES = 0x1b, 0x10
# The forms of what a unit says of itself (DWARF 4, 7.5.4).
NUMBERS = {0x01: "I", 0x05: "H", 0x06: "I", 0x07: "Q", 0x0b: "B", 0x0c: "B", 0x0e: "I", 0x13: "I", 0x17: "I"}
TEXT, SIGNED, UNSIGNED, REFERENCE, PRESENT = 0x08, 0x0d, 0x0f, 0x0e, 0x19


def folders_of(sections):
    """The folder of each unit, by the place of its table of lines. A unit in a form that is not known here has none."""
    units, found = Bytes(sections.get(".debug_info", b"")), {}
    while units.at < len(units.data):
        length = units.take("I")
        end = units.at + length
        if 2 <= units.take("H") <= 4:
            about = described(units, sections)
            if COMPILED_IN in about and LINES in about:
                found[about[LINES]] = about[COMPILED_IN]
        units.at = end
    return found


def described(unit, sections):
    """What a unit says of itself, by attribute, as far as its forms are known."""
    forms = Bytes(sections.get(".debug_abbrev", b""), unit.take("I"))
    unit.take("B")
    code, about = unit.leb(), {}
    if code == 0 or forms.leb() != code:
        return about
    forms.leb()
    forms.take("B")
    while True:
        attribute, form = forms.leb(), forms.leb()
        if form not in NUMBERS and form not in (TEXT, SIGNED, UNSIGNED, PRESENT):
            return about
        about[attribute] = value(unit, form, sections)


def value(unit, form, sections):
    """The value of an attribute."""
    if form == PRESENT:
        return True
    if form in (SIGNED, UNSIGNED):
        return unit.leb(signed=form == SIGNED)
    if form == TEXT:
        return unit.text()
    number = unit.take(NUMBERS[form])
    return Bytes(sections[".debug_str"], number).text() if form == REFERENCE else number
