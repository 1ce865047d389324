# Stores right before the first instruction of a loop and right after its last one, which has two bytes.
    .globl start
start:
    la      t0, again
    la      t1, behind
    j       again
    .space  4
again:
    sb      t2, -1(t0)
    sb      t2, 0(t1)
    c.j     again
behind:
    .space  4
