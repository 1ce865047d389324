# The sums of some words, in the form of the RISC-V architecture tests.
#include "model_test.h"
    .section .text.init, "ax"
    .globl rvtest_entry_point
rvtest_entry_point:
    RVMODEL_BOOT
    la      x5, begin_signature
    li      x6, 0x7fffffff
    li      x7, 1
    add     x8, x6, x7
    sw      x8, 0(x5)
    li      x7, -1
    add     x8, x7, x7
    sw      x8, 4(x5)
    add     x0, x6, x7
    sw      x0, 8(x5)
    add     x6, x6, x6
    sw      x6, 12(x5)
    RVMODEL_HALT

RVMODEL_DATA_BEGIN
    .fill   4, 4, 0xdeadbeef
RVMODEL_DATA_END
