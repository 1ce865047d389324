/* One place whose base and size the linker is given, as by -Wl,--defsym=region_base=0x20000000 and
 * -Wl,--defsym=region_size=0x20000: its lower half as a ROM, its upper half as RAM. The job needs a `region` there. */
MEMORY
{
    rom (rx)  : ORIGIN = region_base, LENGTH = region_size / 2
    ram (rwx) : ORIGIN = region_base + region_size / 2, LENGTH = region_size / 2
}
INCLUDE sections.ld
ASSERT(region_base % 16 == 0 && region_size % 32 == 0, "region_base must be a multiple of 16, region_size of 32")
