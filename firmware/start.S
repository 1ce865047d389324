# Where firmware without a C library begins: a stack, the global pointer, initialised data copied from the ROM to where
# it is used, zeros behind it, constructors, `main`, and the exit call (ECALL with 93 in a7) with what `main` gives as
# the code. It writes no CSR, which the simulator has none of.
    .section .text.init.enter, "ax"
    .globl _start
_start:
    la      sp, __stack
    .option push
    .option norelax                 # relaxed, this would be read from gp itself
    la      gp, __global_pointer$
    .option pop
    la      t0, __data_source
    la      t1, __data_start
    la      t2, __data_end
1:  bgeu    t1, t2, 2f
    lw      t3, 0(t0)
    sw      t3, 0(t1)
    addi    t0, t0, 4
    addi    t1, t1, 4
    j       1b
2:  la      t1, __bss_start
    la      t2, __bss_end
3:  bgeu    t1, t2, 4f
    sw      zero, 0(t1)
    addi    t1, t1, 4
    j       3b
4:  la      s0, __preinit_array_start   # the init array follows, and both are lists of functions
    la      s1, __init_array_end
5:  bgeu    s0, s1, 6f
    lw      t0, 0(s0)
    jalr    t0
    addi    s0, s0, 4
    j       5b
6:  li      a0, 0
    li      a1, 0
    call    main
    li      a7, 93
    ecall
