/* Prints the CRC-32 of what the console gives (that of ISO 3309, as in zip and Ethernet), in hexadecimal, and exits
 * with 0 where the console gave something, else with 1. */
#include "rvfleet.h"

static unsigned table[256];
static unsigned polynomial = 0xedb88320;

static void fill_table(void)
{
    for (unsigned n = 0; n < 256; n++) {
        unsigned rest = n;
        for (int k = 0; k < 8; k++)
            rest = rest & 1 ? rest >> 1 ^ polynomial : rest >> 1;
        table[n] = rest;
    }
}

int main(void)
{
    unsigned checksum = 0xffffffff, length = 0;
    fill_table();
    for (unsigned byte = CONSOLE; byte != SCRIPT_END; byte = CONSOLE) {
        checksum = checksum >> 8 ^ table[(checksum ^ byte) & 0xff];
        length++;
    }
    checksum = ~checksum;
    for (int shift = 28; shift >= 0; shift -= 4)
        CONSOLE = (unsigned char)"0123456789abcdef"[checksum >> shift & 15];
    print("\n");
    return length == 0;
}
