# Jumps between two addresses that are 8,192 bytes apart: in a decode cache with an entry for each even
# address modulo 8,192, both have the same entry.
    .globl start
start:
    .option norvc
    j       other
    .space  8188
other:
    j       start
