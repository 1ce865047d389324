/* The kit's map, within the simulator's own 1 MB from 0x8000_0000: a ROM, a gap of 64 KB that is no memory, and RAM. The
 * list's regions, which mklist writes, are these two. The stack is the lowest in RAM, so one that overflows comes to the gap. */
MEMORY
{
    rom (rx)  : ORIGIN = 0x80000000, LENGTH = 448K
    ram (rwx) : ORIGIN = 0x80080000, LENGTH = 512K
}
INCLUDE sections.ld
