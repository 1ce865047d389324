# Which of six branches are taken for two words that differ as signed and as unsigned numbers, in the form of the RISC-V
# architecture tests: 1 where it was taken.
#include "model_test.h"
    .section .text.init, "ax"
    .globl rvtest_entry_point
    .macro probe branch, offset
    li      x8, 1
    \branch x6, x7, 1f
    li      x8, 0
1:  sw      x8, \offset(x5)
    .endm
rvtest_entry_point:
    RVMODEL_BOOT
    la      x5, begin_signature
    li      x6, -1
    li      x7, 1
    probe   beq, 0
    probe   bne, 4
    probe   blt, 8
    probe   bge, 12
    probe   bltu, 16
    probe   bgeu, 20
    RVMODEL_HALT

RVMODEL_DATA_BEGIN
    .fill   8, 4, 0xdeadbeef
RVMODEL_DATA_END
