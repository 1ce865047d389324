"""Programs of which each ends in another way, written by hand. Numbers are as the manual's listings encode them."""


def lui(rd, value):
    return value << 12 | rd << 7 | 0x37


def auipc(rd, value):
    return value << 12 | rd << 7 | 0x17


def addi(rd, one, value):
    return (value & 0xFFF) << 20 | one << 15 | rd << 7 | 0x13


def add(rd, one, two):
    return two << 20 | one << 15 | rd << 7 | 0x33


def load(kind, rd, value, one):
    return (value & 0xFFF) << 20 | one << 15 | kind << 12 | rd << 7 | 0x03


def lw(rd, value, one):
    return load(2, rd, value, one)


def store(kind, two, value, one):
    return (value >> 5 & 0x7F) << 25 | two << 20 | one << 15 | kind << 12 | (value & 31) << 7 | 0x23


def sw(two, value, one):
    return store(2, two, value, one)


def branch(kind, one, two, value):
    return (value >> 12 & 1) << 31 | (value >> 5 & 0x3F) << 25 | two << 20 | one << 15 | kind << 12 | (value >> 1 & 15) << 8 \
        | (value >> 11 & 1) << 7 | 0x63


def jal(rd, value):
    return (value >> 20 & 1) << 31 | (value >> 1 & 0x3FF) << 21 | (value >> 11 & 1) << 20 | (value >> 12 & 0xFF) << 12 | rd << 7 | 0x6F


def jalr(rd, one, value=0):
    return (value & 0xFFF) << 20 | one << 15 | rd << 7 | 0x67


# ---- halves: an offset from x2 below 64, or one from x8 to x15 below 64, a register of these beside it

def c_lwsp(rd, value):
    return 2 << 13 | (value >> 5 & 1) << 12 | rd << 7 | (value >> 2 & 7) << 4 | 2


def c_swsp(two, value):
    return 6 << 13 | (value >> 2 & 15) << 9 | two << 2 | 2


def c_lw(rd, value, one):
    return 2 << 13 | (value >> 3 & 7) << 10 | one - 8 << 7 | (value >> 2 & 1) << 6 | rd - 8 << 2


def c_sw(two, value, one):
    return 6 << 13 | (value >> 3 & 7) << 10 | one - 8 << 7 | (value >> 2 & 1) << 6 | two - 8 << 2


def pair(first, second):
    return second << 16 | first


ECALL, EBREAK, FENCE_I, TWO_NOPS = 0x73, 0x0010_0073, 0x0000_100F, 0x0001_0001
BNE = 1
EXIT = (addi(17, 0, 93), addi(10, 0, 0), ECALL)
# x5 is 0x80000100; x6 counts down from 6; each round stores it there and at the word behind, loads that, and prints nothing.
LOOP = (
    auipc(5, 0), addi(5, 5, 0x100), addi(6, 0, 6), sw(6, 0, 5), sw(6, 4, 5), lw(7, 4, 5), addi(6, 6, -1), branch(BNE, 6, 0, -16),
)
# x5 is the console; each byte of the script but the last is printed twice, until 10 was taken.
ECHO = (lui(5, 0x10000), addi(7, 0, 10), lw(6, 0, 5), sw(6, 0, 5), sw(6, 0, 5), branch(BNE, 6, 7, -12))
# The word at 20 is `addi x8, x0, 1`; the one at 36 takes its place, and FENCE.I makes it code.
CHANGED = (auipc(5, 0), lw(6, 36, 5), sw(6, 20, 5), FENCE_I, addi(8, 0, 0), addi(8, 0, 1), *EXIT, addi(8, 0, 2))
# The word at 20 is changed, and comes to be run.
STALE = (auipc(5, 0), addi(6, 0, 5), sw(6, 20, 5), TWO_NOPS, addi(7, 0, 1), addi(7, 0, 2))
# x2, x5 and x8 are 0x80000100, and x6 and x9 count down from 3 there; each round loads and stores by each width, and by halves.
BYTE, HALF, BYTE_UNSIGNED, HALF_UNSIGNED = 0, 1, 4, 5
WIDTHS = (
    auipc(5, 0), addi(5, 5, 0x100), addi(2, 5, 0), addi(8, 5, 0), addi(6, 0, 3), addi(9, 6, 0),
    store(BYTE, 6, 1, 5), load(BYTE, 7, 1, 5), load(BYTE_UNSIGNED, 7, 2, 5), store(HALF, 6, 2, 5), load(HALF, 7, 2, 5),
    load(HALF_UNSIGNED, 7, 0, 5), sw(6, 4, 5), lw(7, 4, 5), lw(0, 0, 5), pair(c_swsp(6, 8), c_lwsp(7, 4)), pair(c_sw(9, 4, 8), c_lw(10, 8, 8)),
    addi(6, 6, -1), addi(9, 6, 0), branch(BNE, 6, 0, -52),
)
# x5 counts for ever.
SPINNING = (addi(5, 5, 1), jal(0, -4))
SCRIPT = b"to be\nnot"
# The name, the words, the budget and how the job's end is written in the list.
PROGRAMS = (
    ("exit", (*LOOP, *EXIT), 100, "exit"),
    ("console", (*ECHO, *EXIT), 100, "exit"),
    ("budget", (*LOOP, jal(0, -32)), 60, "budget"),
    ("load-access", (*LOOP, lw(7, 0, 0)), 100, "load-access"),
    ("store-access", (*LOOP, TWO_NOPS, sw(7, 0, 0)), 100, "store-access"),
    ("fetch-access", (*LOOP, jalr(1, 0)), 100, "fetch-access"),
    ("load-misaligned", (*LOOP, lw(7, 2, 5)), 100, "load-misaligned"),
    ("illegal", (*LOOP, 0), 100, "illegal"),
    ("stale-code", STALE, 100, "stale-code"),
    ("breakpoint", (*LOOP, EBREAK), 100, "breakpoint"),
    ("unknown-call", (*LOOP, ECALL), 100, "unknown-call"),
    ("fence-i", CHANGED, 100, "exit"),
    ("widths", (*WIDTHS, *EXIT), 100, "exit"),
    ("misaligned-half", (*WIDTHS, load(HALF, 7, 1, 5)), 100, "load-misaligned"),
)
