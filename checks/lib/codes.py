"""The forms of rows of codes: the assembly text of each, and what each does in every set of instructions, as rvtest
shows them.
"""
import re

import images
from rows import Form, lines

REGISTERS = (
    "zero ra sp gp tp t0 t1 t2 s0 s1 a0 a1 a2 a3 a4 a5 a6 a7 s2 s3 s4 s5 s6 s7 s8 s9 s10 s11 t3 t4 t5 t6".split()
)
WORD = 2**32
SIZE = {"b": 1, "h": 2, "w": 4}


# ---- texts

def text_at(address):
    """The assembly text in the first line of an instruction at an address."""
    line = re.compile(rb"     %08x {24}\w+ +(.*?)(?:  .*)?" % address)
    return lambda out: next((found[1] for found in map(line.fullmatch, out.split(b"\n")) if found), b"none")


def check_assembly(row):
    """The text of a code at an address."""
    address = int(row["address"], 16)
    row.write("code.elf", images.elf(address, [(address, images.numbers(row["code"]))]))
    region = f"region = [{{base = {address & -4}, size = 4}}]"
    row.write("list.toml", f"job = [{{name = 'a', image = 'code.elf', budget = 1, {region}}}]")
    row.wants(["explain", "list.toml", "a"], 1, row["text"], shape=text_at(address))


# ---- meanings

# Where a code stands, behind instructions that give each register a value of its own, and how many these are.
CODE = images.BASE + 0xf8
VALUES = [0] + [0x8001_0300 + 0x1025 * number for number in range(1, 32)]
BEFORE = [code for number, value in enumerate(VALUES[1:], 1) for code in images.loading(number, value)]
# A region that has all these values, and the values with an immediate; misaligned accesses are allowed.
SIZE_OF_REGION = 0x4_0000
MAKE = f"misaligned = 'allow', region = [{{base = {images.BASE}, size = {SIZE_OF_REGION}}}]"
ISAS = ["rv32i", "rv32im", "rv32ic", "rv32imc"]
# A run begins at the code, where all registers are 0, or before these instructions.
STARTS = [(CODE, 0, [0] * 32), (images.BASE, len(BEFORE), VALUES)]


def signed(word):
    return word - WORD if word >> 31 else word


def quotient(one, other):
    """Rounded towards 0, and -1 where there is none."""
    if other == 0:
        return -1
    return abs(one) // abs(other) * (1 if (one < 0) == (other < 0) else -1)


COMPUTED = {
    "Add": lambda a, b: a + b,
    "Sub": lambda a, b: a - b,
    "Sll": lambda a, b: a << b % 32,
    "Slt": lambda a, b: signed(a) < signed(b),
    "Sltu": lambda a, b: a < b,
    "Xor": lambda a, b: a ^ b,
    "Srl": lambda a, b: a >> b % 32,
    "Sra": lambda a, b: signed(a) >> b % 32,
    "Or": lambda a, b: a | b,
    "And": lambda a, b: a & b,
    "Mul": lambda a, b: a * b,
    "Mulh": lambda a, b: signed(a) * signed(b) >> 32,
    "Mulhsu": lambda a, b: signed(a) * b >> 32,
    "Mulhu": lambda a, b: a * b >> 32,
    "Div": lambda a, b: quotient(signed(a), signed(b)),
    "Divu": quotient,
    "Rem": lambda a, b: signed(a) - signed(b) * quotient(signed(a), signed(b)),
    "Remu": lambda a, b: a - b * quotient(a, b),
}
BRANCHES = {
    "Beq": lambda a, b: a == b,
    "Bne": lambda a, b: a != b,
    "Blt": lambda a, b: signed(a) < signed(b),
    "Bge": lambda a, b: signed(a) >= signed(b),
    "Bltu": lambda a, b: a < b,
    "Bgeu": lambda a, b: a >= b,
}


# What is told of a fault's value, where it is no address.
MET = {"illegal": "", "breakpoint": "", "unknown-call": ", value {:08x}"}


class Ends(Exception):
    """The kind and the value of a fault."""


def accessed(name, address, rd, value):
    """What is told of a load or a store; memory at the addresses that there are is 0."""
    size = SIZE[name[1]]
    if not images.BASE <= address <= images.BASE + SIZE_OF_REGION - size:
        raise Ends("load-access" if name[0] == "L" else "store-access", address)
    if name[0] == "S":
        return f"{address:08x} <- {value % 256**size:0{2 * size}x}"
    return f"{REGISTERS[rd]} <- {0:08x} from {address:08x}" if rd else f"from {address:08x}"


def target_of(name, here, a, b, imm):
    """Where a jump or a branch goes, or nothing where it does not."""
    if name == "Jal" or name in BRANCHES and BRANCHES[name](a, b):
        return (here + imm) % WORD
    return (a + imm) % WORD & -2 if name == "Jalr" else None


def value_of(name, here, behind, a, b, imm):
    """What an instruction writes into its register."""
    if name in ("Jal", "Jalr"):
        return behind
    if name in ("Lui", "Auipc"):
        return (imm + here * (name == "Auipc")) % WORD
    if name not in COMPUTED:
        name, b = name.replace("i", "", 1), imm % WORD
    return int(COMPUTED[name](a, b)) % WORD


def done(meaning, length, letters, registers):
    """Does an instruction: where the next one is, and what is told of what it wrote."""
    name, *numbers = meaning.split(" ")
    rd, rs1, rs2, imm = map(int, numbers)
    a, b, behind = registers[rs1], registers[rs2], CODE + length
    if name in ("Ecall", "Ebreak"):
        raise Ends(*(("unknown-call", registers[17]) if name == "Ecall" else ("breakpoint", 0)))
    if name in ("Lb", "Lh", "Lw", "Lbu", "Lhu", "Sb", "Sh", "Sw"):
        told = accessed(name, (a + imm) % WORD, rd, b)
        if rd:
            registers[rd] = 0
        return behind, told
    target = target_of(name, CODE, a, b, imm)
    if target is not None and target % 4 and "c" not in letters:
        raise Ends("fetch-misaligned", target)
    told = ""
    if rd:
        registers[rd] = value_of(name, CODE, behind, a, b, imm)
        told = f"{REGISTERS[rd]} <- {registers[rd]:08x}"
    return behind if target is None else target, told


def told_of(job, meaning, code, letters, start):
    """What is shown of a run from a start: its end, the registers, and what the code did."""
    _, steps, registers = start
    registers = list(registers)
    try:
        if not meaning:
            raise Ends("illegal", int(code, 16))
        place, told = done(meaning, len(code) // 2, letters, registers)
        end = f"budget used up after {images.steps_text(steps + 1)}"
    except Ends as ends:
        kind, value = ends.args
        place, end = CODE, f"fault {kind} at {CODE:08x}, value {value:08x}, after {images.steps_text(steps)}"
        told = kind + MET.get(kind, " at {:08x}").format(value)
    yield f"FAIL {job}: {end}"
    yield "     expected: exit 0, since no expectation is set"
    yield f"     ended at {place:08x}"
    for name, value in zip(REGISTERS, registers):
        yield f"     {name:<4}  {value:08x}"
    yield f"     {told}"


def effect_in(columns):
    """What stands behind the text of a code: behind 24 columns, or behind two spaces where the text is longer."""
    return columns[26:] if columns[24:26] in ("", "  ") else columns.partition("  ")[2]


def without_texts(out):
    """Of the lines of instructions what the code did, and none of the last line."""
    kept = []
    for line in out.decode().splitlines():
        if not re.match(r"     [0-9a-f]{8}  ", line):
            kept.append(line)
        elif line[5:13] == f"{CODE:08x}" and not line.endswith("not run: the budget is used up"):
            kept.append(f"     {effect_in(line[47:])}")
    return lines(*kept[:-1]).encode()


def check_encoding(row):
    """What a code means in the sets that have it."""
    sets, code = row["sets"], row["code"]
    image = images.words_of(BEFORE) + images.numbers(code)
    for entry, steps, _ in STARTS:
        row.write(f"{steps}.elf", images.elf(entry, [(images.BASE, image)]))
    jobs, told = [], []
    for isa in ISAS:
        letters = isa.removeprefix("rv32i")
        has = sets == "all" or sets in letters
        for start in STARTS:
            name = f"{isa}-{start[1]}"
            keys = f"image = '{start[1]}.elf', budget = {start[1] + 1}, isa = '{isa}', {MAKE}"
            jobs.append(f"{{name = '{name}', {keys}}}")
            told += told_of(name, row["meaning"] if has else "", code, letters, start)
    row.write("list.toml", f"job = [{', '.join(jobs)}]\n")
    words = ["run", "list.toml", "--last", "1", "--workers", "1"]
    row.wants(words, 1, lines(*told), shape=without_texts)


FORMS = {
    "assembly": Form(check_assembly, "code address text"),
    "encodings": Form(check_encoding, "sets code meaning"),
}
