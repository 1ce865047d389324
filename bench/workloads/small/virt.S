# The start of the small workload on qemu's machine `virt`: a stack, and after `run` the store that ends the machine.
    .section .text.start, "ax"
    .globl start
start:
    lui     sp, 0x80100
    call    run
    li      a0, 0x5555
    lui     a1, 0x100
    sw      a0, 0(a1)
1:  j       1b
