/* A core that does misaligned loads and stores, which misaligned.keys chooses: without that line the run ends with
 * load-misaligned. */
static _Alignas(4) unsigned char bytes[8] = { 0x11, 0x22, 0x33, 0x44, 0x55, 0x66, 0x77, 0x88 };

/* Volatile, so that the compiler does not know the address, and takes a word by one load. */
static void *volatile second = bytes + 1;

int main(void)
{
    volatile unsigned *word = second;
    if (*word != 0x55443322)
        return 1;
    *word = 0xaabbccdd;
    return bytes[0] == 0x11 && bytes[1] == 0xdd && bytes[4] == 0xaa && bytes[5] == 0x66 ? 0 : 2;
}
