#!/usr/bin/env python3
"""checks/commands/assembly.py: whether the assembly texts that checks/tables has of the GNU disassembler are those that it makes.

Run by hand, since it needs Debian's package binutils-riscv64-unknown-elf; with --write it writes the lists anew. The
GNU assembler makes the codes, of each row at the least, the greatest and a middle value of each operand, but of no hint;
the disassembler, without its pseudo-instructions, makes the texts. A space then stands behind each comma, shifts are
decimal, and what it adds behind a `#` is left out. Of an instruction that is not simulated it makes the name alone.
"""
import pathlib
import re
import subprocess
import sys
import tempfile

TOP = pathlib.Path(__file__).resolve().parents[2]
LIST = TOP / "checks/tables/assembly.txt"
# What stands above the lines of each list.
HEAD = """\
# By the GNU disassembler: `checks/commands/assembly.py --write` writes these lines.
code | address | text
---------------------
"""
HEAD_OF_UNSIMULATED = """\
# By the GNU disassembler, of other extensions, and of privileged modes: `checks/commands/assembly.py --write` writes these lines, too.
code | address | text
---------------------
"""
TOOLS = "riscv64-unknown-elf-"
BASE = 0x8000_0000

# Least, middle and greatest values: of a register, of one that would make x0 a hint, of one of three bits; of immediates.
ANY, SOME, SHORT = ["zero", "a5", "t6"], ["ra", "a5", "t6"], ["s0", "a1", "a5"]
ALL = [f"x{number}" for number in range(32)]
LOW = [-2048, 7, 2047]
UP = ["0", "0x12345", "0xfffff"]
SHIFT = [1, 17, 31]
FEW = [-32, 5, 31]

# Names, the form of their operands, and the values of each; `.+` begins a target.
FORMS = [
    ("lui auipc", "{0}, {1}", SOME, UP),
    ("jal", "{0}, .+{1}", ANY, [-0x10_0000, 2, 0xf_fffe]),
    ("jalr lb lh lw lbu lhu sb sh sw", "{0}, {1}({2})", ANY, LOW, ANY),
    ("beq bne blt bge bltu bgeu", "{0}, {1}, .+{2}", ANY, ANY, [-4096, 16, 4094]),
    ("addi slti sltiu xori ori andi", "{0}, {1}, {2}", SOME, ANY, LOW),
    ("slli srli srai", "{0}, {1}, {2}", SOME, ANY, [0, 17, 31]),
    ("add sub sll slt sltu xor srl sra or and", "{0}, {1}, {2}", SOME, ANY, ANY),
    ("xor", "{0}, {1}, {2}", ALL[1:12], ALL[11:22], ALL[21:32]),
    ("mul mulh mulhsu mulhu div divu rem remu", "{0}, {1}, {2}", ANY, ANY, ANY),
    ("fence.i ecall ebreak", ""),
    ("c.addi4spn", "{0}, sp, {1}", SHORT, [4, 512, 1020]),
    ("c.lw c.sw", "{0}, {1}({2})", SHORT, [0, 64, 124], SHORT),
    ("c.addi", "{0}, {1}", SOME, FEW),
    ("c.jal c.j", ".+{0}", [-2048, 34, 2046]),
    ("c.li", "{0}, {1}", SOME, FEW),
    ("c.addi16sp", "sp, {0}", [-512, 16, 496]),
    ("c.lui", "{0}, {1}", SOME, ["1", "0x1f", "0xfffe0", "0xfffff"]),
    ("c.srli c.srai", "{0}, {1}", SHORT, SHIFT),
    ("c.andi", "{0}, {1}", SHORT, FEW),
    ("c.sub c.xor c.or c.and", "{0}, {1}", SHORT, SHORT),
    ("c.beqz c.bnez", "{0}, .+{1}", SHORT, [-256, 34, 254]),
    ("c.slli", "{0}, {1}", SOME, SHIFT),
    ("c.lwsp", "{0}, {1}(sp)", SOME, [0, 64, 252]),
    ("c.jr c.jalr", "{0}", SOME),
    ("c.mv c.add", "{0}, {1}", SOME, SOME),
    ("c.ebreak", ""),
    ("c.swsp", "{0}, {1}(sp)", ANY, [0, 64, 252]),
]

# Extensions whose instructions are not simulated, or what stands for one; names, and their operands. This assembler has no Zicond.
UNSIMULATED = [
    ("Zicsr", "csrrw csrrs csrrc", "a0, mtvec, a1"),
    ("Zicsr", "csrrwi csrrsi csrrci", "a0, mtvec, 31"),
    ("A", "lr.w lr.w.aqrl", "a0, (a1)"),
    ("A", "sc.w amoswap.w amoadd.w amoadd.w.aqrl amoxor.w amoand.w amoor.w amomin.w amomax.w amominu.w amomaxu.w", "a0, a2, (a1)"),
    ("F", "flw fsw", "fa0, -4(a1)"),
    ("F", "fmadd.s fmsub.s fnmsub.s fnmadd.s", "fa0, fa1, fa2, fa3, rtz"),
    ("F", "fadd.s fsub.s fmul.s fdiv.s", "fa0, fa1, fa2, rup"),
    ("F", "fsqrt.s", "fa0, fa1"),
    ("F", "fsgnj.s fsgnjn.s fsgnjx.s fmin.s fmax.s", "fa0, fa1, fa2"),
    ("F", "fcvt.w.s fcvt.wu.s fmv.x.w fclass.s", "a0, fa1"),
    ("F", "feq.s flt.s fle.s", "a0, fa1, fa2"),
    ("F", "fcvt.s.w fcvt.s.wu fmv.w.x", "fa0, a1"),
    ("D", "fld fsd", "fa0, 2040(a1)"),
    ("D", "fmadd.d fmsub.d fnmsub.d fnmadd.d", "fa0, fa1, fa2, fa3"),
    ("D", "fadd.d fsub.d fmul.d fdiv.d", "fa0, fa1, fa2, rdn"),
    ("D", "fsqrt.d fcvt.s.d fcvt.d.s", "fa0, fa1"),
    ("D", "fsgnj.d fsgnjn.d fsgnjx.d fmin.d fmax.d", "fa0, fa1, fa2"),
    ("D", "fcvt.w.d fcvt.wu.d fclass.d", "a0, fa1"),
    ("D", "feq.d flt.d fle.d", "a0, fa1, fa2"),
    ("D", "fcvt.d.w fcvt.d.wu", "fa0, a1"),
    ("Zba", "sh1add sh2add sh3add", "a0, a1, a2"),
    ("Zbb", "andn orn xnor max maxu min minu rol ror", "a0, a1, a2"),
    ("Zbb", "clz ctz cpop sext.b sext.h zext.h orc.b rev8", "a0, a1"),
    ("Zbb", "rori", "a0, a1, 31"),
    ("Zbc", "clmul clmulh clmulr", "a0, a1, a2"),
    ("Zbs", "bclr bext binv bset", "a0, a1, a2"),
    ("Zbs", "bclri bexti binvi bseti", "a0, a1, 31"),
    ("Zawrs", "wrs.nto wrs.sto", ""),
    ("Zicbom", "cbo.inval cbo.clean cbo.flush", "(a0)"),
    ("Zicboz", "cbo.zero", "(a0)"),
    ("privileged", "sret mret wfi", ""),
    ("privileged", "sfence.vma", "a0, a1"),
    ("D", "c.fld c.fsd", "fa0, 248(a1)"),
    ("F", "c.flw c.fsw", "fa0, 124(a1)"),
    ("D", "c.fldsp c.fsdsp", "fa0, 504(sp)"),
    ("F", "c.flwsp c.fswsp", "fa0, 252(sp)"),
]


def source(name, operands):
    """The line of an instruction, as long as its name says."""
    return f".option {'rvc' if name.startswith('c.') else 'norvc'}\n{name} {operands}\n"


def sources():
    """Each name with its operands: each of their values, and no two operands both at the first of theirs."""
    for names, form, *values in FORMS:
        for name in names.split():
            for turn in range(max(map(len, values), default=1)):
                yield source(name, form.format(*(v[(turn + k) % len(v)] for k, v in enumerate(values))))


def run(tool, *words):
    return subprocess.run([TOOLS + tool, *words], check=True, capture_output=True, text=True).stdout


def spaced(text):
    """A text of the disassembler, as ours are."""
    name, _, operands = text.split("#")[0].strip().partition("\t")
    if re.fullmatch(r"(c\.)?s(ll|rl|ra)i", name):
        operands = re.sub(r"0x[0-9a-f]+", lambda digits: str(int(digits[0], 16)), operands)
    return f"{name} {operands.replace(',', ', ')}".strip()


def listed(extensions, lines, file, *words):
    """The address, the code and the text of each line, as the disassembler has them: of the object, or of its bytes alone."""
    with tempfile.TemporaryDirectory() as folder:
        path = pathlib.Path(folder)
        (path / "rows.s").write_text(".option norelax\n" + "".join(lines))
        run("as", f"-march=rv32{extensions}", "-o", f"{path}/rows.o", f"{path}/rows.s")
        run("objcopy", "-O", "binary", f"{path}/rows.o", f"{path}/rows.bin")
        listing = run("objdump", *words, "-M", "no-aliases", f"--adjust-vma={BASE}", f"{path}/{file}")
    return re.findall(r"^\s*([0-9a-f]+):\t([0-9a-f]+)\s*\t(.*)$", listing, re.M)


def rows():
    # Of bytes alone the targets are addresses.
    for address, code, text in listed("imc_zifencei", sources(), "rows.bin", "-D", "-b", "binary", "-m", "riscv:rv32"):
        yield f"{code} | {address} | {spaced(text)}"


def unsimulated_rows():
    names = [(extension, source(name, operands)) for extension, all_names, operands in UNSIMULATED for name in all_names.split()]
    lines = listed("imafdc_zicsr_zba_zbb_zbc_zbs_zawrs_zicbom_zicboz", (line for _, line in names), "rows.o", "-d")
    for (extension, _), (address, code, text) in zip(names, lines, strict=True):
        name = re.sub(r"\.aqrl$", "", text.split("\t")[0].strip())
        yield f"{code} | {address} | {name} ({extension}: not simulated)"


def main():
    held, count = LIST.read_text(), 0
    for head, made in (HEAD, rows()), (HEAD_OF_UNSIMULATED, unsimulated_rows()):
        made = "".join(f"{row}\n" for row in made)
        begin = held.index(head) + len(head)
        end = held.index("\n\n", begin) + 1
        if sys.argv[1:] == ["--write"]:
            held = held[:begin] + made + held[end:]
        elif held[begin:end] != made:
            sys.exit("checks/commands/assembly.py: the list is not the disassembler's")
        count += made.count("\n")
    if sys.argv[1:] == ["--write"]:
        LIST.write_text(held)
    print(f"checks/commands/assembly.py: {count} rows, each as the disassembler has it")


main()
