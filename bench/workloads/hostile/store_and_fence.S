# Stores over the jump of a loop, and FENCE.I: each round fetches the jump again.
    .globl start
start:
    .option norvc
    la      t0, stored
    lw      t1, 0(t0)
again:
    sw      t1, 0(t0)
    fence.i
stored:
    j       again
