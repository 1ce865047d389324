# The start of a workload: set up a stack, call `run`, and exit with the code that it returns.
    .section .text.start, "ax"
    .globl start
start:
    lui     sp, 0x80100
    call    run
    li      a7, 93
    ecall
